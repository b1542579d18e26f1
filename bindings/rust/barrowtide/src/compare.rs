//! Comparing two proofs.

use std::borrow::Cow;
use std::fmt;

use crate::ffi::{self, Blame, Lent};
use crate::hex;
use crate::refusal::{answer, Refusal};
use crate::Hash;

/// A proof to compare, and the id that it is to prove.
#[derive(Clone, Copy, PartialEq, Eq)]
pub enum Claim<'a> {
    /// A BUMP with a lent id.
    Bump {
        /// The BUMP's bytes.
        data: &'a [u8],
        /// The id.
        id: Hash,
    },
    /// A compound path with a lent id.
    Cmp {
        /// The path's bytes.
        data: &'a [u8],
        /// The id.
        id: Hash,
    },
    /// A TSC proof with its own id.
    Tsc {
        /// The proof's bytes.
        data: &'a [u8],
    },
}

impl Claim<'_> {
    fn lent(&self) -> Lent<'_> {
        match self {
            Claim::Bump { data, id } => Lent { form: 0, data, id: id.stored() },
            Claim::Cmp { data, id } => Lent { form: 1, data, id: id.stored() },
            Claim::Tsc { data } => Lent { form: 2, data, id: &[0; 32] },
        }
    }
}

/// The form, the proof's bytes in hex, and the id in printed order.
impl fmt::Debug for Claim<'_> {
    fn fmt(&self, f: &mut fmt::Formatter<'_>) -> fmt::Result {
        let (form, data, id) = match self {
            Claim::Bump { data, id } => ("Bump", data, Some(id)),
            Claim::Cmp { data, id } => ("Cmp", data, Some(id)),
            Claim::Tsc { data } => ("Tsc", data, None),
        };
        let mut shown = f.debug_struct(form);
        shown.field("data", &format_args!("{}", hex::encode(data)));
        if let Some(id) = id {
            shown.field("id", id);
        }
        shown.finish()
    }
}

/// Two different strings of equal double SHA-256.
#[derive(Clone, Copy, PartialEq, Eq)]
pub struct Collision {
    /// What the first proof hashed at the lowest layer where the two meet.
    pub first: [u8; 64],
    /// What the second proof hashed there.
    pub second: [u8; 64],
}

/// The two strings in hex.
impl fmt::Debug for Collision {
    fn fmt(&self, f: &mut fmt::Formatter<'_>) -> fmt::Result {
        f.debug_struct("Collision")
            .field("first", &format_args!("{}", hex::encode(&self.first)))
            .field("second", &format_args!("{}", hex::encode(&self.second)))
            .finish()
    }
}

/// Compares two proofs of one position in one block.
///
/// Refused with the first proof's refusal, else with the second's, else with 23 if they differ in
/// root, position or layers, else with 24 if they prove one id. What is left are two proofs of
/// different ids at one place, and those hold two strings of equal hash.
///
/// ```
/// use barrowtide::{compare, Claim, Hash, Reason};
/// let (id, sibling) = ([0xaa; 32], [0xbb; 32]);
/// let bump = [&[0x00, 0x01, 0x02, 0x00, 0x02][..], &id, &[0x01, 0x00], &sibling].concat();
/// let cmp = [&[0x00, 0x02, 0x00][..], &id, &[0x01], &sibling].concat();
///
/// let first = Claim::Bump { data: &bump, id: Hash::from_stored(id) };
/// let same = Claim::Cmp { data: &cmp, id: Hash::from_stored(id) };
/// assert_eq!(compare(first, same).unwrap_err().reason, Reason::SameId);
/// let beside = Claim::Cmp { data: &cmp, id: Hash::from_stored(sibling) };
/// assert_eq!(compare(first, beside).unwrap_err().reason, Reason::Unlike);
/// ```
pub fn compare(first: Claim, second: Claim) -> Result<Collision, Refusal> {
    let mut blame = Blame::default();
    let mut strings = Collision { first: [0; 64], second: [0; 64] };
    let number = ffi::compare(
        first.lent(),
        second.lent(),
        &mut blame,
        &mut strings.first,
        &mut strings.second,
    );
    answer(number, blame, strings)
}

/// Two different strings of equal double SHA-256, of proofs of different numbers of layers.
#[derive(Clone, PartialEq, Eq)]
pub struct DepthCollision<'a> {
    /// What the proof with fewer layers has at the lowest layer where the two meet: the 64 bytes that
    /// it hashed there, or, below its lowest layer, the raw transaction itself, which is borrowed.
    pub first: Cow<'a, [u8]>,
    /// What the other proof hashed there.
    pub second: [u8; 64],
}

/// The two strings in hex.
impl fmt::Debug for DepthCollision<'_> {
    fn fmt(&self, f: &mut fmt::Formatter<'_>) -> fmt::Result {
        f.debug_struct("DepthCollision")
            .field("first", &format_args!("{}", hex::encode(&self.first)))
            .field("second", &format_args!("{}", hex::encode(&self.second)))
            .finish()
    }
}

/// Compares two proofs of different numbers of layers in one block, in either order, with the raw
/// transaction of the one that has fewer: does a node of the tree pose as a payment?
///
/// Refused with the first proof's refusal, else with the second's, else with the transaction's, else
/// with 23: if the roots differ, if both have as many layers, if the position of the one with fewer is
/// not the other's halved once for each layer more, or if the transaction is not the one that it
/// proves. What is left are two proofs of which one has a payment where the other has a node of the
/// tree, and those hold two strings of equal hash. As a transaction of 64 bytes, the size of two
/// nodes, is refused with 11, no such pair is known.
///
/// ```
/// use barrowtide::{compare_depths, join, read_transaction, Claim, Hash, Reason};
/// // 64 bytes that are two ids of a block, and one payment.
/// let input = [&[0xaa; 36][..], &[4], &[0xbb; 8]].concat();
/// let raw = [&[1, 0, 0, 0, 1][..], &input, &[1], &[0; 13]].concat();
/// let ids = [raw[..32].try_into().unwrap(), raw[32..].try_into().unwrap()];
/// let [left, right] = ids.map(Hash::from_stored);
/// let node = join(&left, &right);
///
/// // A block of two that has the payment at 0, and one of four whose ids at 0 and 1 are the two.
/// let beside = [&[0x01, 0x00][..], &[0xcc; 32]].concat();
/// let short = [&[0x00, 0x01, 0x02, 0x00, 0x02][..], node.stored(), &beside].concat();
/// let pair = [&[0x00, 0x02][..], left.stored(), &[0x01, 0x00], right.stored()].concat();
/// let long = [&[0x00, 0x02, 0x02][..], &pair, &[0x01], &beside].concat();
/// let posing = Claim::Bump { data: &short, id: node };
/// let inside = Claim::Bump { data: &long, id: left };
///
/// let refusal = compare_depths(posing, inside, &raw).unwrap_err();
/// assert_eq!((refusal.reason, refusal.carried), (Reason::BadTx, 0));
/// assert_eq!(read_transaction(&raw).unwrap_err(), refusal);
/// // Any other transaction is not the one that the shorter proof proves.
/// let other = [&raw[..41], &[3], &raw[43..]].concat();
/// assert_eq!(compare_depths(posing, inside, &other).unwrap_err().reason, Reason::Unlike);
/// ```
pub fn compare_depths<'a>(
    first: Claim,
    second: Claim,
    transaction: &'a [u8],
) -> Result<DepthCollision<'a>, Refusal> {
    let (mut blame, mut is_transaction) = (Blame::default(), 0);
    let (mut one, mut other) = ([0; 64], [0; 64]);
    let number = ffi::compare_depths(
        first.lent(),
        second.lent(),
        transaction,
        &mut blame,
        &mut is_transaction,
        &mut one,
        &mut other,
    );
    let first =
        if is_transaction == 1 { Cow::Borrowed(transaction) } else { Cow::Owned(one.to_vec()) };
    answer(number, blame, DepthCollision { first, second: other })
}

#[cfg(test)]
mod tests {
    use super::*;

    #[test]
    fn readable() {
        let claim = Claim::Cmp { data: &[0x00, 0xab], id: Hash::from_stored([0xaa; 32]) };
        let text = format!("Cmp {{ data: 00ab, id: {} }}", "aa".repeat(32));
        assert_eq!(format!("{claim:?}"), text);
        assert_eq!(format!("{:?}", Claim::Tsc { data: &[0x04] }), "Tsc { data: 04 }");
        let strings = Collision { first: [0xaa; 64], second: [0xbb; 64] };
        let (first, second) = ("aa".repeat(64), "bb".repeat(64));
        let text = format!("Collision {{ first: {first}, second: {second} }}");
        assert_eq!(format!("{strings:?}"), text);
        let strings = DepthCollision { first: Cow::Borrowed(&[0x01, 0xab]), second: [0xbb; 64] };
        let text = format!("DepthCollision {{ first: 01ab, second: {second} }}");
        assert_eq!(format!("{strings:?}"), text);
    }
}
