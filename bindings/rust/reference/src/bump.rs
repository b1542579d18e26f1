//! BUMP (003).

use crate::fields::Cursor;
use crate::generate::draft::varint;
use crate::path::{read_level, Node, Path};
use crate::refusal::{refuse, Refusal, BAD_FLAG, BAD_HEIGHT, OVER_LIMIT};

/// A BUMP's content.
#[derive(Debug, Clone, PartialEq, Eq)]
pub struct Bump {
    /// The block's height in the chain.
    pub block_height: u64,
    /// The levels.
    pub path: Path,
}

/// Reads an input that is one BUMP.
pub fn read(data: &[u8]) -> Result<Bump, Refusal> {
    let mut cursor = Cursor::new(data)?;
    let bump = read_at(&mut cursor)?;
    cursor.end()?;
    Ok(bump)
}

/// Reads a BUMP that other bytes may follow.
pub fn read_at(cursor: &mut Cursor) -> Result<Bump, Refusal> {
    let block_place = cursor.place();
    let block_height = cursor.varint()?;
    if block_height > 4_294_967_295 {
        return refuse(OVER_LIMIT, block_place);
    }
    let height_place = cursor.place();
    let height = u32::from(cursor.byte()?);
    if !(1..=64).contains(&height) {
        return refuse(BAD_HEIGHT, height_place);
    }
    let levels = (0..height)
        .map(|level| {
            read_level(cursor, height, level, |cursor, offset| node(cursor, level, offset))
        })
        .collect::<Result<_, _>>()?;
    Ok(Bump { block_height, path: Path { levels } })
}

/// Flags, and 32 bytes unless the flags are 01.
fn node(cursor: &mut Cursor, level: u32, offset: u64) -> Result<Node, Refusal> {
    let flags_place = cursor.place();
    match cursor.byte()? {
        0 => Ok(Node::Plain(cursor.hash()?)),
        1 if offset % 2 == 1 => Ok(Node::Copy),
        2 if level == 0 => Ok(Node::Client(cursor.hash()?)),
        _ => refuse(BAD_FLAG, flags_place),
    }
}

/// A BUMP's bytes.
pub fn bytes(bump: &Bump) -> Vec<u8> {
    let mut bytes = varint(bump.block_height);
    bytes.push(bump.path.levels.len() as u8);
    for level in &bump.path.levels {
        bytes.extend(varint(level.len() as u64));
        for leaf in level {
            bytes.extend(varint(leaf.offset));
            bytes.push(match leaf.node {
                Node::Plain(_) => 0,
                Node::Copy => 1,
                Node::Client(_) => 2,
            });
            bytes.extend(leaf.node.hash().into_iter().flatten());
        }
    }
    bytes
}
