//! Writing BUMPs.

use crate::Blame;

extern "C" {
    fn barrowtide_write_bump(
        block_height: u64,
        ids: *const u8,
        ids_len: usize,
        positions: *const u64,
        positions_count: usize,
        out: *mut u8,
        out_len: usize,
        blame: *mut Blame,
        written: *mut u64,
    ) -> u32;
}

/// `barrowtide_write_bump`: the BUMP of chosen positions of a block's ids, into lent room.
pub fn write_bump(
    block_height: u64,
    ids: &[u8],
    positions: &[u64],
    out: &mut [u8],
    blame: &mut Blame,
    written: &mut u64,
) -> u32 {
    // SAFETY: the call reads `ids` and `positions` within their lengths and writes within `out`, a
    // blame and a u64, all of which are borrowed for the call.
    unsafe {
        barrowtide_write_bump(
            block_height,
            ids.as_ptr(),
            ids.len(),
            positions.as_ptr(),
            positions.len(),
            out.as_mut_ptr(),
            out.len(),
            blame,
            written,
        )
    }
}
