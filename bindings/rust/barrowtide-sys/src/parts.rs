//! Reading a transaction that arrives in parts.

use crate::{Blame, Stored};

extern "C" {
    fn barrowtide_parts_start(state: *mut Parts);
    fn barrowtide_parts_part(
        state: *mut Parts,
        part: *const u8,
        part_len: usize,
        blame: *mut Blame,
        length: *mut u64,
        inputs: *mut u64,
        outputs: *mut u64,
        id: *mut u8,
    ) -> u32;
    fn barrowtide_parts_end(
        state: *mut Parts,
        blame: *mut Blame,
        length: *mut u64,
        inputs: *mut u64,
        outputs: *mut u64,
        id: *mut u8,
    ) -> u32;
}

/// `barrowtide_parts`: the state of a reading. Any numbers may be in it; what they mean is the
/// library's.
#[derive(Debug, Clone, Copy, Default, PartialEq, Eq)]
#[repr(C)]
pub struct Parts {
    /// What is in it.
    pub content: [u64; 30],
}

/// The size of `barrowtide_parts`.
const _: () = assert!(size_of::<Parts>() == 240);

/// `BARROWTIDE_MORE`: what [`parts_part`] returns while there is no answer yet.
pub const MORE: u32 = 4_294_967_295;

/// `barrowtide_parts_start`: starts afresh, whatever is in the state.
pub fn parts_start(state: &mut Parts) {
    // SAFETY: the call writes the state, whose layout is C's and which is borrowed for the call.
    unsafe { barrowtide_parts_start(state) }
}

/// `barrowtide_parts_part`: one part more.
pub fn parts_part(
    state: &mut Parts,
    part: &[u8],
    blame: &mut Blame,
    length: &mut u64,
    inputs: &mut u64,
    outputs: &mut u64,
    id: &mut Stored,
) -> u32 {
    let id = id.as_mut_ptr();
    // SAFETY: the call reads `part` within its length, reads and writes the state, whose layout is
    // C's and which may hold any numbers, and writes a blame, three u64 and 32 bytes; all of it is
    // borrowed for the call.
    unsafe {
        barrowtide_parts_part(state, part.as_ptr(), part.len(), blame, length, inputs, outputs, id)
    }
}

/// `barrowtide_parts_end`: no part comes any more.
pub fn parts_end(
    state: &mut Parts,
    blame: &mut Blame,
    length: &mut u64,
    inputs: &mut u64,
    outputs: &mut u64,
    id: &mut Stored,
) -> u32 {
    let id = id.as_mut_ptr();
    // SAFETY: as with `parts_part`, without a part.
    unsafe { barrowtide_parts_end(state, blame, length, inputs, outputs, id) }
}
