//! The leaves of a BUMP, one after the other.

use std::iter::FusedIterator;

use crate::bump::read_bump;
use crate::refusal::Refusal;
use crate::varint::read_varint;
use crate::Hash;

/// What a leaf of a BUMP holds.
#[derive(Debug, Clone, Copy, PartialEq, Eq, Hash)]
pub enum LeafKind {
    /// A node's hash.
    Node(Hash),
    /// A copy of the working hash.
    Copy,
    /// A client's id.
    Client(Hash),
}

impl LeafKind {
    /// The hash that it carries; a copy carries none.
    pub fn hash(&self) -> Option<&Hash> {
        match self {
            LeafKind::Node(hash) | LeafKind::Client(hash) => Some(hash),
            LeafKind::Copy => None,
        }
    }
}

/// A leaf of a BUMP.
#[derive(Debug, Clone, Copy, PartialEq, Eq, Hash)]
pub struct BumpLeaf {
    /// Its level.
    pub level: u64,
    /// Its offset in that level.
    pub offset: u64,
    /// The place of its first byte in the BUMP, which is the first of its offset.
    pub place: u64,
    /// What it holds.
    pub kind: LeafKind,
}

/// The leaves of a BUMP, from level 0 up, in the order in which they are written.
///
/// Refused as [`read_bump`]. Nothing is proved: whether the leaves lead to a root is not asked, and of
/// a leaf only the layout is known. By level and offset, whatever the order in which they are written,
/// a [`LeafList`](crate::LeafList) has them.
///
/// ```
/// use barrowtide::{bump_leaves, Hash, LeafKind};
/// // A BUMP of two levels: an id at 2, beside it a copy, and above them a node at 0.
/// let (id, node) = (Hash::from_stored([0xaa; 32]), Hash::from_stored([0xbb; 32]));
/// let bump = [&[7, 2, 2, 2, 2][..], id.stored(), &[3, 1, 1, 0, 0], node.stored()].concat();
///
/// let leaves = bump_leaves(&bump)?;
/// assert_eq!(leaves.len(), 3);
/// let kinds: Vec<_> = leaves.map(|leaf| (leaf.level, leaf.offset, leaf.kind)).collect();
/// let expected = [(0, 2, LeafKind::Client(id)), (0, 3, LeafKind::Copy), (1, 0, LeafKind::Node(node))];
/// assert_eq!(kinds, expected);
///
/// let clients = bump_leaves(&bump)?.filter(|leaf| matches!(leaf.kind, LeafKind::Client(_)));
/// assert_eq!(clients.count(), 1);
/// # Ok::<(), barrowtide::Refusal>(())
/// ```
pub fn bump_leaves(data: &[u8]) -> Result<BumpLeaves<'_>, Refusal> {
    let left = read_bump(data)?.leaves as usize;
    let mut leaves = BumpLeaves { data, place: 0, level: 0, of_level: 0, left };
    // Block height, tree height and the count of level 0.
    leaves.number();
    leaves.byte();
    leaves.of_level = leaves.number();
    Ok(leaves)
}

/// The leaves of a BUMP, as [`bump_leaves`] gives them.
#[derive(Debug, Clone)]
pub struct BumpLeaves<'a> {
    /// A BUMP that the library has read, so that every field is there.
    data: &'a [u8],
    /// Where the next field starts.
    place: usize,
    level: u64,
    /// How many leaves of the level are to come, and of all levels.
    of_level: u64,
    left: usize,
}

impl BumpLeaves<'_> {
    fn byte(&mut self) -> u8 {
        self.place += 1;
        self.data[self.place - 1]
    }

    fn number(&mut self) -> u64 {
        let number = read_varint(&self.data[self.place..]).expect("a number that was read before");
        self.place += number.width as usize;
        number.value
    }

    fn hash(&mut self) -> Hash {
        let mut stored = [0; 32];
        stored.copy_from_slice(&self.data[self.place..][..32]);
        self.place += 32;
        Hash::from_stored(stored)
    }
}

impl Iterator for BumpLeaves<'_> {
    type Item = BumpLeaf;

    fn next(&mut self) -> Option<BumpLeaf> {
        self.left = self.left.checked_sub(1)?;
        while self.of_level == 0 {
            self.level += 1;
            self.of_level = self.number();
        }
        self.of_level -= 1;
        let (level, place) = (self.level, self.place as u64);
        let offset = self.number();
        let kind = match self.byte() {
            0 => LeafKind::Node(self.hash()),
            1 => LeafKind::Copy,
            _ => LeafKind::Client(self.hash()),
        };
        Some(BumpLeaf { level, offset, place, kind })
    }

    fn size_hint(&self) -> (usize, Option<usize>) {
        (self.left, Some(self.left))
    }
}

impl ExactSizeIterator for BumpLeaves<'_> {}

impl FusedIterator for BumpLeaves<'_> {}
