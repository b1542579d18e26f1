//! "The climb".

use crate::refusal::{Refusal, MISSING, TWIN};
use crate::sha256::sha256d;
use crate::Hash;

/// A sibling as a proof gives it.
#[derive(Debug, Clone, Copy, PartialEq, Eq)]
pub enum Sibling {
    /// Its value, written or worked out.
    Value(Hash),
    /// It is a copy of the working hash.
    Copy,
    /// It has no value.
    Missing,
}

/// One layer of a climb: what was hashed and what came of it.
#[derive(Debug, Clone, Copy, PartialEq, Eq)]
pub struct Layer {
    /// The two nodes in the order that the climb put them.
    pub string: [u8; 64],
    /// Their hash.
    pub hash: Hash,
}

/// A climb that was not refused.
#[derive(Debug, Clone, PartialEq, Eq)]
pub struct Climb {
    /// Where it started.
    pub id: Hash,
    /// The position i of the id.
    pub position: u64,
    /// The layers from 0 upwards.
    pub layers: Vec<Layer>,
}

impl Climb {
    /// The root: the hash made at the last layer, or the id where there is none.
    pub fn root(&self) -> Hash {
        self.layers.last().map_or(self.id, |layer| layer.hash)
    }
}

/// The position beside `position` in its layer.
pub fn beside(position: u64) -> u64 {
    if position % 2 == 0 {
        position + 1
    } else {
        position - 1
    }
}

/// Climbs `height` layers from `id` at `position`; `sibling` gives the node at a layer and position
/// of the tree. A refusal is 14 or 15 and blames the first sibling that is missing or a twin.
pub fn climb(
    id: Hash,
    position: u64,
    height: u64,
    mut sibling: impl FnMut(usize, u64) -> Sibling,
) -> Result<Climb, Refusal> {
    let mut layers = Vec::new();
    let mut working = id;
    let mut at = position;
    for layer in 0..height as usize {
        let place = beside(at);
        let blamed = |number| Err(Refusal::of_sibling(number, layer as u64, place));
        let other = match sibling(layer, place) {
            Sibling::Value(hash) => hash,
            Sibling::Copy => working,
            Sibling::Missing => return blamed(MISSING),
        };
        let odd = at % 2 == 1;
        if odd && other == working {
            return blamed(TWIN);
        }
        let (left, right) = if odd { (other, working) } else { (working, other) };
        let string: [u8; 64] =
            std::array::from_fn(|i| if i < 32 { left[i] } else { right[i - 32] });
        working = sha256d(&string);
        layers.push(Layer { string, hash: working });
        at /= 2;
    }
    Ok(Climb { id, position, layers })
}

#[cfg(test)]
mod tests {
    use super::*;

    /// P13.
    #[test]
    fn siblings_of_21_over_7_layers() {
        let siblings: Vec<u64> = (0..7).map(|layer| beside(21 >> layer)).collect();
        assert_eq!(siblings, [20, 11, 4, 3, 0, 1, 1]);
    }
}
