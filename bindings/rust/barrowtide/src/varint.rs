//! VarInts.

use crate::ffi::{self, Blame};
use crate::refusal::{answer, Refusal};

/// A VarInt that was read.
#[derive(Debug, Clone, Copy, PartialEq, Eq)]
pub struct VarInt {
    /// The number.
    pub value: u64,
    /// How many bytes it takes: 1, 3, 5 or 9.
    pub width: u64,
}

/// Reads the VarInt at the input's start; what follows it is not looked at.
///
/// Only the shortest form is taken.
///
/// ```
/// use barrowtide::{read_varint, Reason, VarInt};
/// assert_eq!(read_varint(&[0xfd, 0xfd, 0x00]), Ok(VarInt { value: 253, width: 3 }));
/// assert_eq!(read_varint(&[0xfd, 0xfc, 0x00]).unwrap_err().reason, Reason::LongVarint);
/// ```
pub fn read_varint(data: &[u8]) -> Result<VarInt, Refusal> {
    let (mut blame, mut value, mut width) = (Blame::default(), 0, 0);
    let number = ffi::read_varint(data, &mut blame, &mut value, &mut width);
    answer(number, blame, VarInt { value, width })
}
