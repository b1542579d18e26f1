//! Two proofs of different numbers of layers (02, Item 13).

use crate::climb::Climb;
use crate::compare::Claim;
use crate::refusal::{refuse, Refusal, UNLIKE};
use crate::transaction;
use crate::Hash;

/// "Two different byte strings of equal hash, the shorter proof's first, one of which may be the
/// transaction itself": then the first is `None`.
pub type Strings = (Option<[u8; 64]>, [u8; 64]);

/// Compares two proofs in either order, with the raw transaction of the one with fewer layers: "both
/// proofs', the transaction's, then 23".
pub fn compare_depths(first: &Claim, second: &Claim, raw: &[u8]) -> Result<Strings, Refusal> {
    let (one, two) = (first.climb()?, second.climb()?);
    let id = transaction::read(raw)?.id;
    if one.layers.len() < two.layers.len() {
        strings(&one, &two, id)
    } else {
        strings(&two, &one, id)
    }
}

fn strings(shorter: &Climb, longer: &Climb, id: Hash) -> Result<Strings, Refusal> {
    let extra = longer.layers.len() - shorter.layers.len();
    // "At the other's position halved, dropping remainders, once per extra layer."
    let halved = (0..extra).fold(longer.position, |position, _| position / 2);
    let related = extra > 0 && shorter.root() == longer.root() && shorter.position == halved;
    if !related || shorter.id != id {
        return refuse(UNLIKE, 0);
    }
    // "Layers are matched from the root down, and the transaction stands for a layer below the
    // shorter proof's layer 0": the last that meet are the lowest.
    let down = shorter.layers.iter().rev().map(|layer| (Some(layer.string), layer.hash));
    let matched = down.chain([(None, id)]).zip(longer.layers.iter().rev());
    let meeting = matched.filter(|((_, hash), layer)| *hash == layer.hash).last();
    let ((first, _), layer) = meeting.expect("equal roots meet at the last layer");
    Ok((first, layer.string))
}

#[cfg(test)]
mod tests {
    use super::*;
    use crate::climb::Layer;

    fn made(id: u8, position: u64, hashes: &[u8]) -> Climb {
        let layers = hashes.iter().map(|h| Layer { string: [h ^ id; 64], hash: [*h; 32] });
        Climb { id: [id; 32], position, layers: layers.collect() }
    }

    /// No two strings of equal hash are known, so the meeting is shown on climbs made by hand.
    #[test]
    fn lowest_meeting() {
        let shorter = made(1, 2, &[20, 30]);
        let told = |longer: &Climb| strings(&shorter, longer, [1; 32]);
        // The transaction stands beside layer 1 of 4, and layer 0 is not looked at.
        assert_eq!(told(&made(2, 11, &[20, 1, 20, 30])), Ok((None, [1 ^ 2; 64])));
        assert_eq!(told(&made(2, 11, &[1, 9, 20, 30])), Ok((Some([20 ^ 1; 64]), [20 ^ 2; 64])));
        assert_eq!(told(&made(2, 11, &[1, 9, 21, 30])), Ok((Some([30 ^ 1; 64]), [30 ^ 2; 64])));
        assert_eq!(told(&made(2, 8, &[1, 9, 21, 30])), Ok((Some([30 ^ 1; 64]), [30 ^ 2; 64])));
        // Another position, root, number of layers or transaction.
        let unlike = Err(Refusal::new(UNLIKE, 0));
        assert_eq!(told(&made(2, 12, &[20, 1, 20, 30])), unlike);
        assert_eq!(told(&made(2, 11, &[20, 1, 20, 31])), unlike);
        assert_eq!(told(&made(2, 2, &[20, 30])), unlike);
        assert_eq!(strings(&shorter, &made(2, 11, &[20, 1, 20, 30]), [2; 32]), unlike);
        // No layers: the transaction alone is matched, with the root.
        let alone = Climb { id: [30; 32], position: 0, layers: Vec::new() };
        assert_eq!(strings(&alone, &made(2, 3, &[20, 30]), [30; 32]), Ok((None, [30 ^ 2; 64])));
    }
}
