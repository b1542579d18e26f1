//! BUMP, the BSV unified Merkle path (BRC-74).

use crate::ffi::{self, Blame};
use crate::refusal::{answer, Refusal};

/// What a well-formed BUMP says.
#[derive(Debug, Clone, Copy, PartialEq, Eq)]
pub struct Bump {
    /// The block's height in the chain.
    pub block_height: u64,
    /// The tree's height: how many levels are written, and how many layers a climb has.
    pub tree_height: u64,
    /// The number of leaves of all levels.
    pub leaves: u64,
}

/// Reads an input that is one BUMP.
///
/// ```
/// use barrowtide::{read_bump, Bump, Reason};
/// let bump = Bump { block_height: 5, tree_height: 1, leaves: 1 };
/// assert_eq!(read_bump(&[0x05, 0x01, 0x01, 0x01, 0x01]), Ok(bump));
///
/// // A copy of the working hash at an even offset: the flags byte at place 4 is to blame.
/// let refusal = read_bump(&[0x05, 0x01, 0x01, 0x00, 0x01]).unwrap_err();
/// assert_eq!((refusal.reason, refusal.carried), (Reason::BadFlag, 4));
/// ```
pub fn read_bump(data: &[u8]) -> Result<Bump, Refusal> {
    let (mut block_height, mut tree_height, mut leaves) = (0, 0, 0);
    let mut blame = Blame::default();
    let number = ffi::read_bump(data, &mut blame, &mut block_height, &mut tree_height, &mut leaves);
    answer(number, blame, Bump { block_height, tree_height, leaves })
}
