//! Values of a path's nodes (02, Item 3).

use std::collections::BTreeMap;

use crate::climb::Sibling;
use crate::path::{Leaf, Node, Path};
use crate::sha256::join;
use crate::Hash;

/// The values of a path's nodes, each found once.
#[derive(Debug, Clone)]
pub struct Values<'a> {
    path: &'a Path,
    found: BTreeMap<(usize, u64), Option<Hash>>,
}

impl<'a> Values<'a> {
    /// The values of a path, none of them asked for yet.
    pub fn of(path: &'a Path) -> Self {
        Self { path, found: BTreeMap::new() }
    }

    /// What the climb takes at an offset of a level: there a copy repeats the working hash.
    pub fn sibling(&mut self, level: usize, offset: u64) -> Sibling {
        match self.path.leaf(level, offset) {
            Some(Leaf { node: Node::Copy, .. }) => Sibling::Copy,
            _ => self.value(level, offset).map_or(Sibling::Missing, Sibling::Value),
        }
    }

    /// The value at an offset of a level, if it can be had.
    pub fn value(&mut self, level: usize, offset: u64) -> Option<Hash> {
        if let Some(value) = self.found.get(&(level, offset)) {
            return *value;
        }
        let value = match self.path.leaf(level, offset).map(|leaf| leaf.node) {
            Some(Node::Plain(hash) | Node::Client(hash)) => Some(hash),
            Some(Node::Copy) => self.value(level, offset - 1),
            None if level == 0 => None,
            None => self.children(level - 1, 2 * offset),
        };
        self.found.insert((level, offset), value);
        value
    }

    /// The join of two neighbours of a level, if both have a value.
    fn children(&mut self, level: usize, left: u64) -> Option<Hash> {
        Some(join(&self.value(level, left)?, &self.value(level, left + 1)?))
    }

    /// The places whose values were asked for so far, with these values.
    pub fn asked(&self) -> &BTreeMap<(usize, u64), Option<Hash>> {
        &self.found
    }
}
