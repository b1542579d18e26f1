//! BUMPs and CMPs.

use std::collections::{BTreeMap, BTreeSet};

use super::draft::Draft;
use super::random::Random;
use super::tree::Tree;
use crate::climb::{beside, Sibling};
use crate::Hash;

/// A leaf to write; flags 01 leave the hash out of a BUMP.
#[derive(Debug, Clone, Copy)]
pub struct Leaf {
    /// The offset.
    pub offset: u64,
    /// The flags byte.
    pub flags: u8,
    /// The hash.
    pub hash: Hash,
}

/// A path to write.
#[derive(Debug, Clone)]
pub struct Plan {
    /// The block height, for a BUMP.
    pub block_height: u64,
    /// The leaves of each level in the order they will be written.
    pub levels: Vec<Vec<Leaf>>,
}

impl Plan {
    /// The path of some ids of a tree: client leaves and all the siblings of their climbs, offsets
    /// rising.
    pub fn of(tree: &Tree, positions: &[u64]) -> Self {
        let mut levels = Vec::new();
        for layer in 0..tree.height() {
            let mut level = BTreeMap::new();
            for position in positions {
                let offset = beside(position >> layer);
                level.insert(offset, node_leaf(tree, layer, offset));
            }
            if layer == 0 {
                for &offset in positions {
                    let hash = tree.hash(0, offset);
                    level.insert(offset, Leaf { offset, flags: 2, hash });
                }
            }
            levels.push(level.into_values().collect());
        }
        Self { block_height: 814_435, levels }
    }

    /// The path of some random positions of a tree, in one of the many ways to write it.
    pub fn random(random: &mut Random, tree: &Tree) -> Self {
        let count = tree.ids().len();
        let positions: Vec<u64> =
            (0..random.within(1..=4)).map(|_| random.index(count) as u64).collect();
        let mut plan = Self::of(tree, &positions);
        plan.thin(random, tree);
        plan.vary(random, tree);
        plan
    }

    /// Changes that keep all climbs: another order, surplus leaves, plain flags for a client's,
    /// another block.
    pub fn vary(&mut self, random: &mut Random, tree: &Tree) {
        self.block_height = random.number() % (1 << 32);
        let clients = self.levels[0].iter().filter(|leaf| leaf.flags == 2);
        let asked = clients.flat_map(|leaf| self.asked(leaf.hash, leaf.offset)).collect();
        for level in 0..self.levels.len() {
            for _ in 0..random.within(0..=2) {
                self.add_surplus(random, tree, level, &asked);
            }
            if random.one_in(2) {
                random.shuffle(&mut self.levels[level]);
            }
        }
        for leaf in &mut self.levels[0] {
            if leaf.flags == 2 && random.one_in(5) {
                leaf.flags = 0;
            }
        }
    }

    /// Adds a leaf at an offset that has none and that no climb of a client asks about: the tree's
    /// node, or something else.
    fn add_surplus(
        &mut self,
        random: &mut Random,
        tree: &Tree,
        level: usize,
        asked: &BTreeSet<(usize, u64)>,
    ) {
        let end = 1 << (self.levels.len() - level);
        let offset = random.within(0..=end - 1);
        if asked.contains(&(level, offset)) || self.leaf(level, offset).is_some() {
            return;
        }
        let mut leaf = node_leaf(tree, level, offset);
        match random.within(0..=3) {
            0 => leaf.hash = random.hash(),
            1 => leaf.hash = tree.hash(0, 0),
            2 if offset % 2 == 1 => leaf.flags = 1,
            _ => {}
        }
        self.levels[level].push(leaf);
    }

    /// The leaf at an offset of a level.
    pub fn leaf(&self, level: usize, offset: u64) -> Option<&Leaf> {
        self.levels[level].iter().find(|leaf| leaf.offset == offset)
    }

    /// A change that may break a rule or a climb.
    pub fn spoil(&mut self, random: &mut Random) {
        let height = self.levels.len();
        if height == 0 {
            return;
        }
        let level = random.index(height);
        if self.levels[level].is_empty() || random.one_in(12) {
            match random.within(0..=2) {
                0 => self.levels.truncate(height - 1),
                1 => self.levels.insert(level, Vec::new()),
                _ => self.block_height = random.number(),
            }
            return;
        }
        let at = random.index(self.levels[level].len());
        let leaf = self.levels[level][at];
        let other = self.levels[level][random.index(self.levels[level].len())];
        let changed = &mut self.levels[level][at];
        match random.within(0..=8) {
            0 => drop(self.levels[level].remove(at)),
            1 => self.levels[level].push(leaf),
            2 => changed.offset = beside(leaf.offset),
            3 => changed.offset = random.number(),
            4 => changed.flags = random.pick(&[0, 1, 2, 3, 0xff]),
            5 => changed.hash = other.hash,
            6 => changed.hash = random.hash(),
            7 => {
                let end = 1u64.checked_shl((height - level) as u32).unwrap_or(0);
                changed.offset = leaf.offset.wrapping_add(end);
            }
            _ => {
                let upper = random.index(height);
                self.levels[upper].push(leaf);
            }
        }
    }

    /// The path as a BUMP.
    pub fn bump(&self) -> Draft {
        let mut draft = Draft::default();
        draft.varint(self.block_height);
        draft.byte(self.levels.len() as u8);
        for level in &self.levels {
            draft.varint(level.len() as u64);
            for leaf in level {
                draft.varint(leaf.offset);
                draft.byte(leaf.flags);
                if leaf.flags != 1 {
                    draft.raw(&leaf.hash);
                }
            }
        }
        draft
    }

    /// The path as a CMP, copies written out.
    pub fn cmp(&self) -> Draft {
        let mut draft = Draft::default();
        draft.byte((self.levels.len() as u8).wrapping_sub(1));
        for level in self.levels.iter().rev() {
            draft.varint(level.len() as u64);
            for leaf in level {
                draft.varint(leaf.offset);
                draft.raw(&leaf.hash);
            }
        }
        draft
    }
}

/// The tree's node at an offset as a leaf.
pub(super) fn node_leaf(tree: &Tree, layer: usize, offset: u64) -> Leaf {
    let flags = if tree.node(layer, offset) == Sibling::Copy { 1 } else { 0 };
    Leaf { offset, flags, hash: tree.hash(layer, offset) }
}
