//! "Two climbs".

use crate::climb::Climb;
use crate::prove::{by_bump, by_cmp, by_tsc};
use crate::refusal::{refuse, Refusal, SAME_ID, UNLIKE};
use crate::Hash;

/// A proof to compare.
#[derive(Debug, Clone, PartialEq, Eq)]
pub enum Claim {
    /// A BUMP with a lent id.
    Bump(Vec<u8>, Hash),
    /// A CMP with a lent id.
    Cmp(Vec<u8>, Hash),
    /// A TSC proof with its own id.
    Tsc(Vec<u8>),
}

impl Claim {
    /// The proof's climb.
    pub fn climb(&self) -> Result<Climb, Refusal> {
        match self {
            Claim::Bump(data, id) => by_bump(data, id),
            Claim::Cmp(data, id) => by_cmp(data, id),
            Claim::Tsc(data) => by_tsc(data),
        }
    }
}

/// Compares two proofs: the first's refusal, the second's, 23, 24, or the strings hashed where they
/// first meet.
pub fn compare(first: &Claim, second: &Claim) -> Result<([u8; 64], [u8; 64]), Refusal> {
    strings(&first.climb()?, &second.climb()?)
}

fn strings(first: &Climb, second: &Climb) -> Result<([u8; 64], [u8; 64]), Refusal> {
    let key = |climb: &Climb| (climb.root(), climb.position, climb.layers.len());
    if key(first) != key(second) {
        return refuse(UNLIKE, 0);
    }
    if first.id == second.id {
        return refuse(SAME_ID, 0);
    }
    let mut layers = first.layers.iter().zip(&second.layers);
    let (a, b) =
        layers.find(|(a, b)| a.hash == b.hash).expect("equal roots meet at the last layer");
    Ok((a.string, b.string))
}

#[cfg(test)]
mod tests {
    use super::*;
    use crate::climb::Layer;

    /// No two strings of equal hash are known, so the meeting is shown on climbs made by hand.
    #[test]
    fn lowest_meeting() {
        let made = |id: u8, hashes: [u8; 3]| Climb {
            id: [id; 32],
            position: 5,
            layers: hashes.map(|h| Layer { string: [h ^ id; 64], hash: [h; 32] }).to_vec(),
        };
        let (a, b) = (made(1, [10, 20, 30]), made(2, [11, 20, 30]));
        assert_eq!(strings(&a, &b), Ok(([20 ^ 1; 64], [20 ^ 2; 64])));
        assert_eq!(strings(&a, &made(1, [11, 20, 30])).unwrap_err().number, SAME_ID);
        assert_eq!(strings(&a, &made(2, [10, 20, 31])).unwrap_err().number, UNLIKE);
    }
}
