//! Two BUMPs side by side.

use crate::ffi::{self, Blame};
use crate::refusal::{answer, Refusal};
use crate::Hash;

/// The greatest number of differences that two BUMPs have.
pub const MAX_DIFFERENCES: usize = 112_640;

/// Where a leaf that differs stands.
#[derive(Debug, Clone, Copy, PartialEq, Eq)]
pub enum Side {
    /// In the first BUMP only.
    First,
    /// In the second BUMP only.
    Second,
    /// In both, with other flags or another hash.
    Both,
}

/// Something in which two BUMPs differ.
#[derive(Debug, Clone, Copy, PartialEq, Eq)]
pub enum Difference {
    /// The block height.
    BlockHeight,
    /// The tree height.
    TreeHeight,
    /// A leaf.
    Leaf {
        /// Its level.
        level: u64,
        /// Its offset.
        offset: u64,
        /// Where it stands.
        side: Side,
    },
}

impl Difference {
    /// The difference that an entry of a lent list says: 1 or 2, or 3, 4 or 5 with a level and an
    /// offset.
    ///
    /// # Panics
    ///
    /// If the first number is none of these: then it is no list's entry.
    pub fn of_entry(entry: [u64; 3]) -> Self {
        let leaf = |side| Self::Leaf { level: entry[1], offset: entry[2], side };
        match entry[0] {
            1 => Self::BlockHeight,
            2 => Self::TreeHeight,
            3 => leaf(Side::First),
            4 => leaf(Side::Second),
            5 => leaf(Side::Both),
            other => panic!("no entry starts with {other}"),
        }
    }
}

/// Lists the differences of two BUMPs into lent room, three numbers an entry, and gives the number
/// of entries.
///
/// It is [`differences`] but for the room: refused with 22 if there are more differences than
/// `list.len() / 3`. What lies past the entries written stays as it was, and all of the list on a
/// refusal. [`Difference::of_entry`] tells what an entry says.
///
/// ```
/// use barrowtide::{differences_into, Reason};
/// let (first, second) = ([0, 1, 0], [7, 1, 1, 1, 1]);
/// let mut list = [9; 7];
/// let refusal = differences_into(&first, &second, &mut list[..5]).unwrap_err();
/// assert_eq!((refusal.reason, list), (Reason::NoRoom, [9; 7]));
///
/// assert_eq!(differences_into(&first, &second, &mut list)?, 2);
/// assert_eq!(list, [1, 0, 0, 4, 0, 1, 9]);
/// # Ok::<(), barrowtide::Refusal>(())
/// ```
pub fn differences_into(first: &[u8], second: &[u8], list: &mut [u64]) -> Result<usize, Refusal> {
    let (mut blame, mut entries) = (Blame::default(), 0);
    let number = ffi::differences(first, second, list, &mut blame, &mut entries);
    answer(number, blame, entries as usize)
}

/// Every difference of two BUMPs, once and in order: block height, tree height, then by level and
/// offset the leaves that stand in one only, or in both with other flags or another hash. The order
/// in which leaves are written is no difference.
///
/// Refused as [`read_bump`](crate::read_bump), the first before the second.
///
/// ```
/// use barrowtide::{differences, Difference, Side};
/// let hash = [0xaa; 32];
/// let client = [&[0, 1, 1, 0, 2][..], &hash].concat();
/// let node = [&[0, 1, 2, 1, 1, 0, 0][..], &hash].concat();
/// let leaf = |offset, side| Difference::Leaf { level: 0, offset, side };
/// assert_eq!(differences(&client, &node)?, [leaf(0, Side::Both), leaf(1, Side::Second)]);
/// # Ok::<(), barrowtide::Refusal>(())
/// ```
pub fn differences(first: &[u8], second: &[u8]) -> Result<Vec<Difference>, Refusal> {
    // A leaf takes two bytes at least.
    let room = (2 + (first.len() + second.len()) / 2).min(MAX_DIFFERENCES);
    let mut list = vec![0; 3 * room];
    let entries = differences_into(first, second, &mut list)?;
    let entry = |words: &[u64]| Difference::of_entry([words[0], words[1], words[2]]);
    Ok(list[..3 * entries].chunks_exact(3).map(entry).collect())
}

/// The shorter of two BUMPs, where both prove an id to one root; the first if they are equally long.
///
/// Refused as [`prove_bump`](crate::prove_bump), the first before the second, then with 23 for two
/// roots. Positions, layers and block heights may differ.
///
/// ```
/// use barrowtide::{shorter, Hash, Reason};
/// let bytes = [[0xaa; 32], [0xbb; 32]];
/// let short = [&[0x00, 0x01, 0x02, 0x00, 0x02][..], &bytes[0], &[0x01, 0x00], &bytes[1]].concat();
/// let [id, _] = bytes.map(Hash::from_stored);
/// let long = [&[0xfd, 0x00, 0x01][..], &short[1..]].concat();
/// assert_eq!(shorter(&long, &short, &id)?, &short[..]);
/// assert_eq!(shorter(&long, &short, &Hash::default()).unwrap_err().reason, Reason::NotListed);
/// # Ok::<(), barrowtide::Refusal>(())
/// ```
pub fn shorter<'a>(first: &'a [u8], second: &'a [u8], id: &Hash) -> Result<&'a [u8], Refusal> {
    let (mut blame, mut which, mut length) = (Blame::default(), 0, 0);
    let number = ffi::shorter(first, second, id.stored(), &mut blame, &mut which, &mut length);
    let part = [first, second][which as usize];
    answer(number, blame, &part[..length as usize])
}
