//! CMP, the compound Merkle path (BRC-61).

use crate::ffi::{self, Blame};
use crate::refusal::{answer, Refusal};

/// What a well-formed compound path says.
#[derive(Debug, Clone, Copy, PartialEq, Eq)]
pub struct Cmp {
    /// The tree's height: one more than the path's first byte.
    pub tree_height: u64,
    /// The number of leaves of all levels.
    pub leaves: u64,
}

/// Reads an input that is one compound path.
///
/// ```
/// use barrowtide::{read_cmp, Cmp};
/// assert_eq!(read_cmp(&[0x00, 0x00]), Ok(Cmp { tree_height: 1, leaves: 0 }));
/// ```
pub fn read_cmp(data: &[u8]) -> Result<Cmp, Refusal> {
    let (mut blame, mut tree_height, mut leaves) = (Blame::default(), 0, 0);
    let number = ffi::read_cmp(data, &mut blame, &mut tree_height, &mut leaves);
    answer(number, blame, Cmp { tree_height, leaves })
}
