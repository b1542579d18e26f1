//! Two BUMPs side by side.

use crate::{Blame, Stored};

extern "C" {
    fn barrowtide_differences(
        first: *const u8,
        first_len: usize,
        second: *const u8,
        second_len: usize,
        list: *mut u64,
        list_len: usize,
        blame: *mut Blame,
        entries: *mut u64,
    ) -> u32;

    fn barrowtide_shorter(
        first: *const u8,
        first_len: usize,
        second: *const u8,
        second_len: usize,
        id: *const u8,
        blame: *mut Blame,
        which: *mut u64,
        length: *mut u64,
    ) -> u32;
}

/// `barrowtide_differences`: the list of differences, three numbers an entry, into lent room.
pub fn differences(
    first: &[u8],
    second: &[u8],
    list: &mut [u64],
    blame: &mut Blame,
    entries: &mut u64,
) -> u32 {
    // SAFETY: the call reads both inputs within their lengths and writes within `list`, a blame and
    // a u64, all of which are borrowed for the call.
    unsafe {
        barrowtide_differences(
            first.as_ptr(),
            first.len(),
            second.as_ptr(),
            second.len(),
            list.as_mut_ptr(),
            list.len(),
            blame,
            entries,
        )
    }
}

/// `barrowtide_shorter`: which of two BUMPs is handed back, 0 or 1, and how many of its bytes.
pub fn shorter(
    first: &[u8],
    second: &[u8],
    id: &Stored,
    blame: &mut Blame,
    which: &mut u64,
    length: &mut u64,
) -> u32 {
    // SAFETY: the call reads both inputs within their lengths and the id's 32 bytes, and writes a
    // blame and two u64, all of which are borrowed for the call.
    unsafe {
        barrowtide_shorter(
            first.as_ptr(),
            first.len(),
            second.as_ptr(),
            second.len(),
            id.as_ptr(),
            blame,
            which,
            length,
        )
    }
}
