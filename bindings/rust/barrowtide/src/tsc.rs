//! TSC, the Merkle proof standardised format (TS 2020.010-31), in its binary form.

use crate::ffi::{self, Blame};
use crate::refusal::{answer, Refusal};

/// What a well-formed TSC proof says.
#[derive(Debug, Clone, Copy, PartialEq, Eq)]
pub struct Tsc {
    /// The flags byte: bit 0 for a whole transaction, bits 1 and 2 for the kind of target.
    pub flags: u64,
    /// The transaction's position in its block.
    pub index: u64,
    /// The number of nodes, one for each layer.
    pub nodes: u64,
}

/// Reads an input that is one TSC proof. Its target is not compared with anything here.
///
/// ```
/// use barrowtide::{read_tsc, Tsc};
/// // An id that is alone in its block, with a block hash as target, and no nodes.
/// let proof = [&[0x00, 0x00][..], &[0xaa; 32], &[0xbb; 32], &[0x00]].concat();
/// assert_eq!(read_tsc(&proof), Ok(Tsc { flags: 0, index: 0, nodes: 0 }));
/// ```
pub fn read_tsc(data: &[u8]) -> Result<Tsc, Refusal> {
    let (mut blame, mut flags, mut index, mut nodes) = (Blame::default(), 0, 0, 0);
    let number = ffi::read_tsc(data, &mut blame, &mut flags, &mut index, &mut nodes);
    answer(number, blame, Tsc { flags, index, nodes })
}
