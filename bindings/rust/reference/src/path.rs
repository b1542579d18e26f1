//! What BUMP and CMP have in common: levels of leaves.

use std::collections::HashSet;

use crate::fields::Cursor;
use crate::refusal::{refuse, Refusal, BAD_OFFSET, OVER_LIMIT, REPEATED};
use crate::Hash;

/// 01's size of a level.
pub const MAX_LEAVES: u64 = 1_024;

/// What a leaf holds.
#[derive(Debug, Clone, Copy, PartialEq, Eq)]
pub enum Node {
    /// A node's hash.
    Plain(Hash),
    /// A copy of the working hash.
    Copy,
    /// A client's id.
    Client(Hash),
}

impl Node {
    /// The 32 bytes that the leaf carries; a copy carries none.
    pub fn hash(&self) -> Option<&Hash> {
        match self {
            Node::Plain(hash) | Node::Client(hash) => Some(hash),
            Node::Copy => None,
        }
    }
}

/// A leaf of a level.
#[derive(Debug, Clone, Copy, PartialEq, Eq)]
pub struct Leaf {
    /// Its offset from the left.
    pub offset: u64,
    /// What it holds.
    pub node: Node,
}

/// Levels from 0 upwards, as many as the tree is high; their leaves as written.
#[derive(Debug, Clone, PartialEq, Eq)]
pub struct Path {
    /// The leaves of each level.
    pub levels: Vec<Vec<Leaf>>,
}

impl Path {
    /// The number of layers to fold.
    pub fn tree_height(&self) -> u64 {
        self.levels.len() as u64
    }

    /// The number of leaves of all levels.
    pub fn leaves(&self) -> u64 {
        self.levels.iter().map(|level| level.len() as u64).sum()
    }

    /// The leaf at an offset of a level, if it is written.
    pub fn leaf(&self, level: usize, offset: u64) -> Option<&Leaf> {
        self.levels[level].iter().find(|leaf| leaf.offset == offset)
    }
}

/// Whether a position lies below 2 to the number of layers, of which there may be 64.
pub fn fits(position: u64, layers: u32) -> bool {
    position.checked_shr(layers).unwrap_or(0) == 0
}

/// Reads level `level` of a tree of the given height; `node` reads what stands behind an offset.
pub fn read_level<'a>(
    cursor: &mut Cursor<'a>,
    height: u32,
    level: u32,
    node: impl Fn(&mut Cursor<'a>, u64) -> Result<Node, Refusal>,
) -> Result<Vec<Leaf>, Refusal> {
    let count_place = cursor.place();
    let count = cursor.varint()?;
    if count > MAX_LEAVES {
        return refuse(OVER_LIMIT, count_place);
    }
    let mut met = HashSet::new();
    let mut leaves = Vec::new();
    for _ in 0..count {
        let offset_place = cursor.place();
        let offset = cursor.varint()?;
        if !fits(offset, height - level) {
            return refuse(BAD_OFFSET, offset_place);
        }
        if !met.insert(offset) {
            return refuse(REPEATED, offset_place);
        }
        leaves.push(Leaf { offset, node: node(cursor, offset)? });
    }
    Ok(leaves)
}
