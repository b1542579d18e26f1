//! Proving an id by a path or a TSC proof, and checking all clients of a BUMP.

use crate::bump;
use crate::climb::{climb, Climb, Sibling};
use crate::cmp;
use crate::path::{Node, Path};
use crate::refusal::{refuse, Refusal, NOT_LISTED, ROOTS_DIFFER};
use crate::tsc::{self, Tsc};
use crate::values::Values;
use crate::Hash;

/// Proves an id by a BUMP.
pub fn by_bump(data: &[u8], id: &Hash) -> Result<Climb, Refusal> {
    climb_path(&bump::read(data)?.path, id)
}

/// Proves an id by a CMP.
pub fn by_cmp(data: &[u8], id: &Hash) -> Result<Climb, Refusal> {
    climb_path(&cmp::read(data)?, id)
}

/// Proves a TSC proof's own id.
pub fn by_tsc(data: &[u8]) -> Result<Climb, Refusal> {
    climb_tsc(&tsc::read(data)?)
}

/// A BUMP's all-clients check: the one root.
pub fn all_clients(data: &[u8]) -> Result<Hash, Refusal> {
    clients_root(&bump::read(data)?.path)
}

/// The climb of an id in a path.
pub fn climb_path(path: &Path, id: &Hash) -> Result<Climb, Refusal> {
    match start(path, id) {
        Some(position) => climb_from(path, *id, position),
        None => refuse(NOT_LISTED, 0),
    }
}

/// Where the climb starts: at the level-0 leaf that carries the id, of several the least offset.
pub fn start(path: &Path, id: &Hash) -> Option<u64> {
    let carriers = path.levels[0].iter().filter(|leaf| leaf.node.hash() == Some(id));
    carriers.map(|leaf| leaf.offset).min()
}

fn climb_from(path: &Path, id: Hash, position: u64) -> Result<Climb, Refusal> {
    let mut values = Values::of(path);
    climb(id, position, path.tree_height(), |layer, offset| values.sibling(layer, offset))
}

/// The climb of a TSC proof's own id, to the root that its target holds, if it holds one.
pub fn climb_tsc(proof: &Tsc) -> Result<Climb, Refusal> {
    let height = proof.nodes.len() as u64;
    let climb = climb(proof.id, proof.index, height, |layer, _| match proof.nodes[layer] {
        tsc::Node::Hash(hash) => Sibling::Value(hash),
        tsc::Node::Copy => Sibling::Copy,
    })?;
    match proof.target.root() {
        Some(root) if root != climb.root() => refuse(ROOTS_DIFFER, 0),
        _ => Ok(climb),
    }
}

/// The one root that all clients of a path lead to.
pub fn clients_root(path: &Path) -> Result<Hash, Refusal> {
    let mut first = None;
    for leaf in &path.levels[0] {
        if let Node::Client(id) = leaf.node {
            let root = climb_from(path, id, leaf.offset)?.root();
            if *first.get_or_insert(root) != root {
                return refuse(ROOTS_DIFFER, 0);
            }
        }
    }
    first.ok_or(Refusal::new(NOT_LISTED, 0))
}
