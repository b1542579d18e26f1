//! TSC binary proof (000).

use crate::fields::Cursor;
use crate::path::fits;
use crate::refusal::{refuse, Refusal, BAD_FLAG, BAD_OFFSET, BAD_TX, OVER_LIMIT};
use crate::transaction::{self, Transaction};
use crate::Hash;

/// What the proof leads to.
#[derive(Debug, Clone, Copy, PartialEq, Eq)]
pub enum Target {
    /// The block's hash.
    BlockHash(Hash),
    /// The block's header.
    Header([u8; 80]),
    /// The Merkle root.
    Root(Hash),
}

impl Target {
    /// The root that the target holds; a block hash holds none.
    pub fn root(&self) -> Option<Hash> {
        match self {
            Target::BlockHash(_) => None,
            Target::Header(header) => Some(std::array::from_fn(|i| header[36 + i])),
            Target::Root(root) => Some(*root),
        }
    }
}

/// A node of the proof.
#[derive(Debug, Clone, Copy, PartialEq, Eq)]
pub enum Node {
    /// A hash.
    Hash(Hash),
    /// A copy of the working hash.
    Copy,
}

/// A TSC proof's content.
#[derive(Debug, Clone, PartialEq, Eq)]
pub struct Tsc {
    /// The flags byte.
    pub flags: u8,
    /// The position in the block.
    pub index: u64,
    /// The id written, or the transaction's.
    pub id: Hash,
    /// The target.
    pub target: Target,
    /// The place of the node count.
    pub count_place: usize,
    /// The siblings from layer 0 upwards.
    pub nodes: Vec<Node>,
}

/// Reads an input that is one TSC proof.
pub fn read(data: &[u8]) -> Result<Tsc, Refusal> {
    let mut cursor = Cursor::new(data)?;
    let flags = cursor.byte()?;
    if flags & 6 == 6 || flags > 7 {
        return refuse(BAD_FLAG, 0);
    }
    let index_place = cursor.place();
    let index = cursor.varint()?;
    let id = if flags & 1 == 1 { stated(&mut cursor)?.id } else { cursor.hash()? };
    let target = match flags & 6 {
        0 => Target::BlockHash(cursor.hash()?),
        2 => Target::Header(cursor.array()?),
        _ => Target::Root(cursor.hash()?),
    };
    let count_place = cursor.place();
    let count = cursor.varint()?;
    if count > 64 {
        return refuse(OVER_LIMIT, count_place);
    }
    if !fits(index, count as u32) {
        return refuse(BAD_OFFSET, index_place);
    }
    let nodes = (0..count).map(|_| node(&mut cursor)).collect::<Result<_, _>>()?;
    cursor.end()?;
    Ok(Tsc { flags, index, id, target, count_place, nodes })
}

/// A transaction of a stated length: 2 if the length is past the input's end, 11 for any other
/// fault inside.
fn stated(cursor: &mut Cursor) -> Result<Transaction, Refusal> {
    let length = cursor.varint()?;
    let start = cursor.place();
    let bytes = cursor.bytes(length)?;
    transaction::read(bytes).or_else(|_| refuse(BAD_TX, start))
}

fn node(cursor: &mut Cursor) -> Result<Node, Refusal> {
    let type_place = cursor.place();
    match cursor.byte()? {
        0 => Ok(Node::Hash(cursor.hash()?)),
        1 => Ok(Node::Copy),
        _ => refuse(BAD_FLAG, type_place),
    }
}
