//! Two paths side by side (02, Item 7).

use std::collections::BTreeMap;

use crate::bump::{self, Bump};
use crate::path::Node;
use crate::prove::by_bump;
use crate::refusal::{refuse, Refusal, NO_ROOM, UNLIKE};
use crate::Hash;

/// What two BUMPs differ in, as three numbers: 1 block height, 2 tree height, 3 a leaf in the first
/// only, 4 in the second only, 5 in both; then level and offset.
pub type Entry = [u64; 3];

/// Every difference, if there is room for so many.
pub fn differences(first: &[u8], second: &[u8], room: usize) -> Result<Vec<Entry>, Refusal> {
    let list = list(&bump::read(first)?, &bump::read(second)?);
    if list.len() > room {
        return refuse(NO_ROOM, 0);
    }
    Ok(list)
}

/// Block height, tree height, then by level and offset.
fn list(first: &Bump, second: &Bump) -> Vec<Entry> {
    let mut list = Vec::new();
    if first.block_height != second.block_height {
        list.push([1, 0, 0]);
    }
    if first.path.tree_height() != second.path.tree_height() {
        list.push([2, 0, 0]);
    }
    let (first, second) = (leaves(first), leaves(second));
    let mut places: Vec<_> = first.keys().chain(second.keys()).collect();
    places.sort();
    places.dedup();
    for place in places {
        let what = match (first.get(place), second.get(place)) {
            (Some(_), None) => 3,
            (None, Some(_)) => 4,
            (a, b) if a != b => 5,
            _ => continue,
        };
        list.push([what, place.0, place.1]);
    }
    list
}

/// A BUMP's leaves by level and offset.
fn leaves(bump: &Bump) -> BTreeMap<(u64, u64), Node> {
    let levels = (0..).zip(&bump.path.levels);
    levels
        .flat_map(|(level, leaves)| {
            leaves.iter().map(move |leaf| ((level, leaf.offset), leaf.node))
        })
        .collect()
}

/// Which of two BUMPs is the shorter, if both climb from the id to one root: 0 the first, also if
/// they are equally long, 1 the second.
pub fn shorter(first: &[u8], second: &[u8], id: &Hash) -> Result<usize, Refusal> {
    let roots = (by_bump(first, id)?.root(), by_bump(second, id)?.root());
    if roots.0 != roots.1 {
        return refuse(UNLIKE, 0);
    }
    Ok(usize::from(second.len() < first.len()))
}
