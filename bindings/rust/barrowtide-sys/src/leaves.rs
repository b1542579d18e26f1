//! A list of a BUMP's leaves, and two BUMPs merged.

use crate::Blame;

extern "C" {
    fn barrowtide_list_leaves(
        data: *const u8,
        len: usize,
        list: *mut u64,
        list_len: usize,
        blame: *mut Blame,
        leaves: *mut u64,
    ) -> u32;

    fn barrowtide_search_leaves(
        list: *const u64,
        list_len: usize,
        level: u64,
        offset: u64,
        place: *mut u64,
    ) -> u32;

    fn barrowtide_merge(
        first: *const u8,
        first_len: usize,
        second: *const u8,
        second_len: usize,
        bytes: *mut u8,
        bytes_len: usize,
        list: *mut u64,
        list_len: usize,
        blame: *mut Blame,
        written: *mut u64,
        leaves: *mut u64,
    ) -> u32;
}

/// `barrowtide_list_leaves`: the list of a BUMP's leaves, three numbers a leaf, into lent room.
pub fn list_leaves(data: &[u8], list: &mut [u64], blame: &mut Blame, leaves: &mut u64) -> u32 {
    let (out, out_len) = (list.as_mut_ptr(), list.len());
    // SAFETY: the call reads `data` within its length and writes within `list`, a blame and a u64,
    // all of which are borrowed for the call.
    unsafe { barrowtide_list_leaves(data.as_ptr(), data.len(), out, out_len, blame, leaves) }
}

/// `barrowtide_search_leaves`: 1 if the list has a leaf at the level and offset, whose place is then
/// written, and else 0. No other call returns 1 for success.
pub fn search_leaves(list: &[u64], level: u64, offset: u64, place: &mut u64) -> u32 {
    // SAFETY: the call reads `list` within its length and writes a u64, which are borrowed for the
    // call.
    unsafe { barrowtide_search_leaves(list.as_ptr(), list.len(), level, offset, place) }
}

/// Where a merged BUMP and the list of its leaves go.
#[derive(Debug)]
pub struct Room<'a> {
    /// The bytes.
    pub bytes: &'a mut [u8],
    /// The list, three numbers a leaf.
    pub list: &'a mut [u64],
}

/// `barrowtide_merge`: two BUMPs of one block as one, and the list of its leaves, into lent room.
pub fn merge(
    first: &[u8],
    second: &[u8],
    room: Room,
    blame: &mut Blame,
    written: &mut u64,
    leaves: &mut u64,
) -> u32 {
    // SAFETY: the call reads both inputs within their lengths and writes within the room's bytes and
    // list, a blame and two u64, all of which are borrowed for the call.
    unsafe {
        barrowtide_merge(
            first.as_ptr(),
            first.len(),
            second.as_ptr(),
            second.len(),
            room.bytes.as_mut_ptr(),
            room.bytes.len(),
            room.list.as_mut_ptr(),
            room.list.len(),
            blame,
            written,
            leaves,
        )
    }
}
