//! The leaves of a path, for showing them. Whether a path is accepted is the library's word alone;
//! here one that it has read is only walked.

use std::collections::BTreeMap;

use barrowtide::{join, Hash};

use crate::cursor::Cursor;

/// What a leaf holds.
#[derive(Clone, Copy, PartialEq, Eq)]
pub enum Kind {
    Node(Hash),
    Copy,
    Client(Hash),
}

impl Kind {
    /// The word for it.
    pub fn word(self) -> &'static str {
        match self {
            Kind::Node(_) => "node",
            Kind::Copy => "copy",
            Kind::Client(_) => "client",
        }
    }

    /// Its hash; a copy has none.
    pub fn hash(self) -> Option<Hash> {
        match self {
            Kind::Node(hash) | Kind::Client(hash) => Some(hash),
            Kind::Copy => None,
        }
    }

    /// The word, and the hash in printed order.
    pub fn text(self) -> String {
        match self.hash() {
            Some(hash) => format!("{} {hash}", self.word()),
            None => self.word().to_string(),
        }
    }
}

/// A leaf as written.
#[derive(Clone, Copy)]
pub struct Leaf {
    pub offset: u64,
    pub kind: Kind,
}

/// The leaves of each level, from level 0 up, in the order in which they are written.
pub struct Levels(pub Vec<Vec<Leaf>>);

/// A leaf at the cursor.
type ReadLeaf = fn(&mut Cursor) -> Option<Leaf>;

fn level(cursor: &mut Cursor, leaf: ReadLeaf) -> Option<Vec<Leaf>> {
    let count = cursor.number()?;
    (0..count).map(|_| leaf(cursor)).collect()
}

fn bump_leaf(cursor: &mut Cursor) -> Option<Leaf> {
    let offset = cursor.number()?;
    let kind = match cursor.byte()? {
        0 => Kind::Node(cursor.hash()?),
        1 => Kind::Copy,
        _ => Kind::Client(cursor.hash()?),
    };
    Some(Leaf { offset, kind })
}

fn cmp_leaf(cursor: &mut Cursor) -> Option<Leaf> {
    Some(Leaf { offset: cursor.number()?, kind: Kind::Node(cursor.hash()?) })
}

impl Levels {
    /// Those of a BUMP that the library has read.
    pub fn of_bump(data: &[u8]) -> Option<Self> {
        Self::next_bump(&mut Cursor::new(data))
    }

    /// Those of the BUMP at the cursor.
    pub fn next_bump(cursor: &mut Cursor) -> Option<Self> {
        cursor.number()?;
        let height = cursor.byte()?;
        (0..height).map(|_| level(cursor, bump_leaf)).collect::<Option<_>>().map(Self)
    }

    /// Those of a compound path that the library has read.
    pub fn of_cmp(data: &[u8]) -> Option<Self> {
        let mut cursor = Cursor::new(data);
        let height = u32::from(cursor.byte()?) + 1;
        let levels: Option<Vec<_>> = (0..height).map(|_| level(&mut cursor, cmp_leaf)).collect();
        levels.map(|mut levels| {
            levels.reverse();
            Self(levels)
        })
    }

    /// What is written at an offset of a level.
    pub fn at(&self, level: usize, offset: u64) -> Option<Kind> {
        let leaf = self.0.get(level)?.iter().find(|leaf| leaf.offset == offset)?;
        Some(leaf.kind)
    }

    /// Where a climb from an id starts: the least offset of level 0 that carries it.
    pub fn start(&self, id: &Hash) -> Option<u64> {
        let carries = |leaf: &&Leaf| leaf.kind.hash().as_ref() == Some(id);
        self.0.first()?.iter().filter(carries).map(|leaf| leaf.offset).min()
    }

    /// The client with the least offset.
    pub fn first_client(&self) -> Option<Hash> {
        let client = |leaf: &&Leaf| matches!(leaf.kind, Kind::Client(_));
        let first = self.0.first()?.iter().filter(client).min_by_key(|leaf| leaf.offset)?;
        first.kind.hash()
    }

    /// The number of client leaves.
    pub fn clients(&self) -> usize {
        let client = |leaf: &&Leaf| matches!(leaf.kind, Kind::Client(_));
        self.0.iter().flatten().filter(client).count()
    }
}

/// The values of nodes, written or worked out, each found once.
pub struct Values<'a> {
    levels: &'a Levels,
    found: BTreeMap<(usize, u64), Option<Hash>>,
}

impl<'a> Values<'a> {
    pub fn of(levels: &'a Levels) -> Self {
        Self { levels, found: BTreeMap::new() }
    }

    /// The value of a node: the hash written there, a copy's left neighbour's, or if nothing is
    /// written the join of its two children.
    pub fn of_node(&mut self, level: usize, offset: u64) -> Option<Hash> {
        if let Some(value) = self.found.get(&(level, offset)) {
            return *value;
        }
        let value = match self.levels.at(level, offset) {
            Some(Kind::Copy) => offset.checked_sub(1).and_then(|left| self.of_node(level, left)),
            Some(kind) => kind.hash(),
            None => self.join_of(level, offset),
        };
        self.found.insert((level, offset), value);
        value
    }

    fn join_of(&mut self, level: usize, offset: u64) -> Option<Hash> {
        let (below, left) = (level.checked_sub(1)?, offset.checked_mul(2)?);
        Some(join(&self.of_node(below, left)?, &self.of_node(below, left + 1)?))
    }
}
