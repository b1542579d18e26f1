//! Reading VarInts, BUMPs and compound paths.

use crate::Blame;

extern "C" {
    fn barrowtide_read_varint(
        data: *const u8,
        len: usize,
        blame: *mut Blame,
        value: *mut u64,
        width: *mut u64,
    ) -> u32;
    fn barrowtide_read_bump(
        data: *const u8,
        len: usize,
        blame: *mut Blame,
        block_height: *mut u64,
        tree_height: *mut u64,
        leaves: *mut u64,
    ) -> u32;
    fn barrowtide_read_cmp(
        data: *const u8,
        len: usize,
        blame: *mut Blame,
        tree_height: *mut u64,
        leaves: *mut u64,
    ) -> u32;
}

/// `barrowtide_read_varint`: the VarInt at the input's start.
pub fn read_varint(data: &[u8], blame: &mut Blame, value: &mut u64, width: &mut u64) -> u32 {
    // SAFETY: the call reads `data` within its length and writes a blame and two u64, all of which
    // are borrowed for the call.
    unsafe { barrowtide_read_varint(data.as_ptr(), data.len(), blame, value, width) }
}

/// `barrowtide_read_bump`: an input that is one BUMP.
pub fn read_bump(
    data: &[u8],
    blame: &mut Blame,
    block_height: &mut u64,
    tree_height: &mut u64,
    leaves: &mut u64,
) -> u32 {
    // SAFETY: the call reads `data` within its length and writes a blame and three u64, all of
    // which are borrowed for the call.
    unsafe {
        barrowtide_read_bump(data.as_ptr(), data.len(), blame, block_height, tree_height, leaves)
    }
}

/// `barrowtide_read_cmp`: an input that is one compound path.
pub fn read_cmp(data: &[u8], blame: &mut Blame, tree_height: &mut u64, leaves: &mut u64) -> u32 {
    // SAFETY: the call reads `data` within its length and writes a blame and two u64, all of which
    // are borrowed for the call.
    unsafe { barrowtide_read_cmp(data.as_ptr(), data.len(), blame, tree_height, leaves) }
}
