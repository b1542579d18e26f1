//! To and from TSC proofs.

use crate::{Blame, Stored};

extern "C" {
    fn barrowtide_tsc_to_bump(
        data: *const u8,
        len: usize,
        block_height: u32,
        out: *mut u8,
        out_len: usize,
        blame: *mut Blame,
        written: *mut u64,
    ) -> u32;
    fn barrowtide_bump_to_tsc(
        data: *const u8,
        len: usize,
        id: *const u8,
        out: *mut u8,
        out_len: usize,
        blame: *mut Blame,
        written: *mut u64,
    ) -> u32;
}

/// `barrowtide_tsc_to_bump`: the BUMP of a TSC proof, into lent room.
pub fn tsc_to_bump(
    data: &[u8],
    block_height: u32,
    out: &mut [u8],
    blame: &mut Blame,
    written: &mut u64,
) -> u32 {
    // SAFETY: the call reads `data` within its length and writes within `out`, a blame and a u64,
    // all of which are borrowed for the call.
    unsafe {
        barrowtide_tsc_to_bump(
            data.as_ptr(),
            data.len(),
            block_height,
            out.as_mut_ptr(),
            out.len(),
            blame,
            written,
        )
    }
}

/// `barrowtide_bump_to_tsc`: the TSC proof of an id's climb in a BUMP, into lent room.
pub fn bump_to_tsc(
    data: &[u8],
    id: &Stored,
    out: &mut [u8],
    blame: &mut Blame,
    written: &mut u64,
) -> u32 {
    // SAFETY: the call reads `data` within its length and the id's 32 bytes, and writes within
    // `out`, a blame and a u64, all of which are borrowed for the call.
    unsafe {
        barrowtide_bump_to_tsc(
            data.as_ptr(),
            data.len(),
            id.as_ptr(),
            out.as_mut_ptr(),
            out.len(),
            blame,
            written,
        )
    }
}
