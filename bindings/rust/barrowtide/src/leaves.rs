//! A list of leaves beside a BUMP, and two BUMPs merged.

use crate::bump::read_bump;
use crate::ffi::{self, Blame, Room};
use crate::refusal::{answer, Reason, Refusal};

/// The greatest number of leaves of a level.
pub const MAX_LEAVES: usize = 1_024;

/// The greatest number of leaves that a BUMP has on all its levels.
pub const MAX_LISTED: usize = 57_342;

/// More bytes than two BUMPs have together that are enough for the merged one: the count of a level
/// may take one byte more than both counts took.
pub const MERGE_EXTRA: usize = 64;

/// A leaf of a [`LeafList`].
#[derive(Debug, Clone, Copy, PartialEq, Eq, Hash)]
pub struct ListedLeaf {
    /// Its level.
    pub level: u64,
    /// Its offset in that level.
    pub offset: u64,
    /// The place of its first byte in the BUMP, which is the first of its offset.
    pub place: u64,
}

impl ListedLeaf {
    /// The leaf that three numbers of a lent list stand for.
    pub fn of_numbers([level, offset, place]: [u64; 3]) -> Self {
        Self { level, offset, place }
    }
}

/// A list of a BUMP's leaves by level and offset, kept beside a busy BUMP: a search in it takes a few
/// steps, where the BUMP itself would be read through.
///
/// It holds places, not bytes: it belongs to the bytes that it was [built](Self::build) from or
/// [merged](Self::merge) to, and to no others.
///
/// ```
/// use barrowtide::LeafList;
/// // A BUMP of two levels: ids at 3 and 2, and above them a node at 0.
/// let (id, sibling, node) = ([0xaa; 32], [0xbb; 32], [0xcc; 32]);
/// let bump =
///     [&[7, 2, 2, 3, 0][..], &sibling, &[2, 2], &id, &[1, 0, 0], &node].concat();
///
/// let list = LeafList::build(&bump)?;
/// let leaves: Vec<_> = list.iter().map(|leaf| (leaf.level, leaf.offset, leaf.place)).collect();
/// assert_eq!(leaves, [(0, 2, 37), (0, 3, 3), (1, 0, 72)]);
///
/// let place = list.search(0, 2).expect("a leaf");
/// assert_eq!(bump[place + 1], 2, "flags of a client");
/// assert_eq!(bump[place + 2..][..32], id);
/// assert_eq!(list.search(1, 1), None);
/// # Ok::<(), barrowtide::Refusal>(())
/// ```
#[derive(Debug, Clone, PartialEq, Eq)]
pub struct LeafList {
    numbers: Vec<u64>,
}

impl LeafList {
    /// The list of a BUMP's leaves: each of them once, rising by level and then by offset, whatever
    /// the order in which they are written.
    ///
    /// Refused as [`read_bump`]. Nothing is proved: whether the leaves lead to a root is not asked.
    pub fn build(bump: &[u8]) -> Result<Self, Refusal> {
        let mut numbers = vec![0; 3 * most_leaves(bump.len())];
        let leaves = list_leaves_into(bump, &mut numbers)?;
        numbers.truncate(3 * leaves);
        Ok(Self { numbers })
    }

    /// The place of the first byte of the leaf at a level and offset of the BUMP, or `None` if it has
    /// none there.
    pub fn search(&self, level: u64, offset: u64) -> Option<usize> {
        search_leaves(&self.numbers, level, offset)
    }

    /// Two BUMPs of one block as one that proves what either proves, and the list of its leaves,
    /// which is what [`build`](Self::build) gives of the merged bytes.
    ///
    /// The merged BUMP has every leaf of either once and no other, offsets rising, and the root that
    /// both have. Where both have a leaf, a client's flag wins over a plain one, and a hash over a
    /// copy, if the node on its left is written with that hash in one of the two.
    ///
    /// Refused, in this order: as [`check_clients`](crate::check_clients) the first, then the second;
    /// then, carrying nothing, 23 for two block heights, tree heights or roots, 5 for a merged level
    /// of more than [`MAX_LEAVES`], 16 if the two contradict each other: by two hashes at one place, by
    /// a copy against another hash than the one on its left, or by leaves by which the merged BUMP's
    /// clients would not all lead to that root.
    ///
    /// ```
    /// use barrowtide::{check_clients, join, Hash, LeafList, Reason};
    /// let ids = [0xa0, 0xa1, 0xa2, 0xa3].map(|byte| Hash::from_stored([byte; 32]));
    /// let [left, right] = [join(&ids[0], &ids[1]), join(&ids[2], &ids[3])];
    /// // A processor's BUMP of the first id, and another's of the third.
    /// let leaf = |offset: u8, flags: u8, hash: &Hash| [&[offset, flags][..], hash.stored()].concat();
    /// let pair = |at: usize, client: u8, other: u8| {
    ///     [leaf(at as u8, client, &ids[at]), leaf(at as u8 + 1, other, &ids[at + 1])].concat()
    /// };
    /// let bump = |leaves: Vec<u8>, node: Vec<u8>| [vec![7, 2, 2], leaves, vec![1], node].concat();
    /// let first = bump(pair(0, 2, 0), leaf(1, 0, &right));
    /// let third = bump(pair(2, 2, 0), leaf(0, 0, &left));
    ///
    /// let merged = LeafList::merge(&first, &third)?;
    /// assert_eq!(check_clients(&merged.bump), check_clients(&first));
    /// assert_eq!(merged.leaves, LeafList::build(&merged.bump)?);
    /// assert_eq!(merged.leaves.len(), 6);
    ///
    /// // Another block: nothing to merge.
    /// let other = bump(pair(2, 2, 0), leaf(0, 0, &ids[0]));
    /// assert_eq!(LeafList::merge(&first, &other).unwrap_err().reason, Reason::Unlike);
    /// # Ok::<(), barrowtide::Refusal>(())
    /// ```
    pub fn merge(first: &[u8], second: &[u8]) -> Result<MergedBump, Refusal> {
        let length = first.len() + second.len();
        let mut bump = vec![0; length + MERGE_EXTRA];
        let mut numbers = vec![0; 3 * most_leaves(length)];
        let merged = merge_into(first, second, &mut bump, &mut numbers)?;
        bump.truncate(merged.written);
        numbers.truncate(3 * merged.leaves);
        Ok(MergedBump { bump, leaves: Self { numbers } })
    }

    /// The number of leaves.
    pub fn len(&self) -> usize {
        self.numbers.len() / 3
    }

    /// Whether there is none.
    pub fn is_empty(&self) -> bool {
        self.numbers.is_empty()
    }

    /// The leaves, by level and offset.
    pub fn iter(&self) -> impl ExactSizeIterator<Item = ListedLeaf> + '_ {
        let leaf = |numbers: &[u64]| ListedLeaf::of_numbers([numbers[0], numbers[1], numbers[2]]);
        self.numbers.chunks_exact(3).map(leaf)
    }

    /// The list as C has it, three numbers a leaf: level, offset, place.
    pub fn as_numbers(&self) -> &[u64] {
        &self.numbers
    }
}

/// A leaf takes two bytes at least.
fn most_leaves(bytes: usize) -> usize {
    (bytes / 2).min(MAX_LISTED)
}

/// Two BUMPs merged.
#[derive(Debug, Clone, PartialEq, Eq)]
pub struct MergedBump {
    /// The merged BUMP.
    pub bump: Vec<u8>,
    /// The list of its leaves.
    pub leaves: LeafList,
}

/// Lists a BUMP's leaves into lent room, three numbers a leaf, and gives the number of leaves.
///
/// It is [`LeafList::build`] but for the room: refused with 22, which comes last, if there are more
/// leaves than `list.len() / 3` (3 * [`MAX_LISTED`] numbers are always enough). What lies past the
/// leaves written stays as it was, and all of the list on a refusal.
///
/// ```
/// use barrowtide::{list_leaves_into, search_leaves, Reason};
/// let bump = [7, 1, 1, 1, 1];
/// let mut list = [9; 5];
/// assert_eq!(list_leaves_into(&bump, &mut list[..2]).unwrap_err().reason, Reason::NoRoom);
/// assert_eq!(list, [9; 5]);
///
/// let leaves = list_leaves_into(&bump, &mut list)?;
/// assert_eq!((leaves, list), (1, [0, 1, 3, 9, 9]));
/// assert_eq!(search_leaves(&list[..3 * leaves], 0, 1), Some(3));
/// # Ok::<(), barrowtide::Refusal>(())
/// ```
pub fn list_leaves_into(bump: &[u8], list: &mut [u64]) -> Result<usize, Refusal> {
    let (mut blame, mut leaves) = (Blame::default(), 0);
    let number = ffi::list_leaves(bump, list, &mut blame, &mut leaves);
    answer(number, blame, leaves as usize)
}

/// The place of a leaf by a lent list, three numbers a leaf and nothing after them, or `None` if the
/// BUMP has no leaf at that level and offset.
///
/// The list must be one that [`list_leaves_into`] or [`merge_into`] wrote. Of any other numbers the
/// call answers something, and that is all that is known.
pub fn search_leaves(list: &[u64], level: u64, offset: u64) -> Option<usize> {
    let mut place = 0;
    let found = ffi::search_leaves(list, level, offset, &mut place) != 0;
    found.then_some(place as usize)
}

/// What [`merge_into`] has written.
#[derive(Debug, Clone, Copy, PartialEq, Eq)]
pub struct Merged {
    /// How many bytes.
    pub written: usize,
    /// How many leaves the merged BUMP has; the list has three numbers for each.
    pub leaves: usize,
}

/// Merges two BUMPs into lent room, for the bytes and for the list of the leaves.
///
/// It is [`LeafList::merge`] but for the room: refused with 22, which comes last, if the bytes needed
/// are more than `bytes` has ([`MERGE_EXTRA`] more than both inputs are always enough) or the leaves
/// more than `list.len() / 3`. What lies past what is written stays as it was, and all of both on a
/// refusal.
///
/// ```
/// use barrowtide::{merge_into, Merged, Reason};
/// let leaf = |offset: u8, flags: u8, byte: u8| [&[offset, flags][..], &[byte; 32]].concat();
/// let first = [&[7, 1, 2][..], &leaf(0, 2, 0xaa), &leaf(1, 0, 0xab)].concat();
/// let second = [&[7, 1, 2][..], &leaf(1, 2, 0xab), &leaf(0, 0, 0xaa)].concat();
///
/// let (mut bytes, mut list) = ([0x77; 72], [9; 7]);
/// let refusal = merge_into(&first, &second, &mut bytes[..70], &mut list).unwrap_err();
/// assert_eq!((refusal.reason, bytes[0], list), (Reason::NoRoom, 0x77, [9; 7]));
///
/// let merged = merge_into(&first, &second, &mut bytes, &mut list)?;
/// assert_eq!(merged, Merged { written: 71, leaves: 2 });
/// assert_eq!((bytes[4], bytes[38], bytes[71]), (2, 2, 0x77), "two clients");
/// assert_eq!(list, [0, 0, 3, 0, 1, 37, 9]);
/// # Ok::<(), barrowtide::Refusal>(())
/// ```
pub fn merge_into(
    first: &[u8],
    second: &[u8],
    bytes: &mut [u8],
    list: &mut [u64],
) -> Result<Merged, Refusal> {
    let (mut blame, mut written, mut leaves) = (Blame::default(), 0, 0);
    let room = Room { bytes, list };
    let number = ffi::merge(first, second, room, &mut blame, &mut written, &mut leaves);
    let merged = Merged { written: written as usize, leaves: leaves as usize };
    answer(number, blame, merged).map_err(|refusal| {
        // A merged level over its limit blames no byte of either.
        let of_merged = refusal.reason == Reason::OverLimit
            && read_bump(first).is_ok()
            && read_bump(second).is_ok();
        if of_merged {
            refusal.of_caller()
        } else {
            refusal
        }
    })
}
