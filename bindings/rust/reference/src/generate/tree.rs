//! Merkle trees of whole blocks.

use super::random::Random;
use crate::climb::Sibling;
use crate::sha256::join;
use crate::Hash;

/// A block's tree; a layer of an odd number of nodes pairs its last one with itself.
#[derive(Debug, Clone)]
pub struct Tree {
    layers: Vec<Vec<Hash>>,
}

impl Tree {
    /// The tree over a block's ids.
    pub fn new(ids: Vec<Hash>) -> Self {
        let mut layers = vec![ids];
        while let Some(layer) = layers.last().filter(|layer| layer.len() > 1) {
            let parent = |pair: &[Hash]| join(&pair[0], pair.last().unwrap_or(&pair[0]));
            layers.push(layer.chunks(2).map(parent).collect());
        }
        Self { layers }
    }

    /// A tree over `count` ids that nothing is known of.
    pub fn random(random: &mut Random, count: usize) -> Self {
        Self::new((0..count).map(|_| random.hash()).collect())
    }

    /// The block's ids.
    pub fn ids(&self) -> &[Hash] {
        &self.layers[0]
    }

    /// The number of layers to fold.
    pub fn height(&self) -> usize {
        self.layers.len() - 1
    }

    /// The root.
    pub fn root(&self) -> Hash {
        self.layers[self.height()][0]
    }

    /// The node at a position, or a copy beside the last node of an odd number.
    pub fn node(&self, layer: usize, position: u64) -> Sibling {
        let nodes = &self.layers[layer];
        match nodes.get(position as usize) {
            Some(hash) => Sibling::Value(*hash),
            None if position % 2 == 1 && position as usize == nodes.len() => Sibling::Copy,
            None => Sibling::Missing,
        }
    }

    /// The hash at a position, which is the left neighbour's for a copy.
    pub fn hash(&self, layer: usize, position: u64) -> Hash {
        let nodes = &self.layers[layer];
        nodes[(position as usize).min(nodes.len() - 1)]
    }
}
