//! The hash.

use crate::{Blame, Stored};

extern "C" {
    fn barrowtide_sha256d(data: *const u8, len: usize, blame: *mut Blame, digest: *mut u8) -> u32;
    fn barrowtide_join(left: *const u8, right: *const u8, parent: *mut u8);
}

/// `barrowtide_sha256d`: the double SHA-256 of `data`.
pub fn sha256d(data: &[u8], blame: &mut Blame, digest: &mut Stored) -> u32 {
    // SAFETY: the call reads `data` within its length and writes a blame and 32 bytes, all of
    // which are borrowed for the call.
    unsafe { barrowtide_sha256d(data.as_ptr(), data.len(), blame, digest.as_mut_ptr()) }
}

/// `barrowtide_join`: the double SHA-256 of the left node, then the right node.
pub fn join(left: &Stored, right: &Stored, parent: &mut Stored) {
    // SAFETY: the call reads 32 bytes twice and writes 32, all of which are borrowed for the call.
    unsafe { barrowtide_join(left.as_ptr(), right.as_ptr(), parent.as_mut_ptr()) }
}
