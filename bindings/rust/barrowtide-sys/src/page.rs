//! Proving a page of ids.

use std::mem::offset_of;

use crate::version::expect_same;
use crate::{Blame, Stored};

extern "C" {
    fn barrowtide_prove_page(
        data: *const u8,
        len: usize,
        ids: *const u8,
        ids_len: usize,
        row: *mut Answer,
        row_len: usize,
        blame: *mut Blame,
    ) -> u32;
}

/// `barrowtide_answer`: what a page's row says of one of its ids.
#[derive(Debug, Clone, Copy, Default, PartialEq, Eq)]
#[repr(C)]
pub struct Answer {
    /// 0 if the id is proved, else the number of its refusal.
    pub refusal: u64,
    /// What the refusal carries; 0 if the id is proved.
    pub carried: u64,
    /// Of 14 and 15 the layer of the sibling that is missing or a twin; else 0.
    pub layer: u64,
    /// Of 14 and 15 that sibling's position in its layer; else 0.
    pub sibling: u64,
    /// The id's position in the block; 0 if refused.
    pub position: u64,
    /// The number of layers between it and the root; 0 if refused.
    pub layers: u64,
    /// The Merkle root; zero if refused.
    pub root: Stored,
}

/// Its size and fields.
const _: () = assert!(size_of::<Answer>() == 80);
const _: () = assert!(offset_of!(Answer, refusal) == 0);
const _: () = assert!(offset_of!(Answer, carried) == 8);
const _: () = assert!(offset_of!(Answer, layer) == 16);
const _: () = assert!(offset_of!(Answer, sibling) == 24);
const _: () = assert!(offset_of!(Answer, position) == 32);
const _: () = assert!(offset_of!(Answer, layers) == 40);
const _: () = assert!(offset_of!(Answer, root) == 48);

/// `barrowtide_prove_page`: ids that stand end to end by one BUMP, into a lent row.
pub fn prove_page(data: &[u8], ids: &[u8], row: &mut [Answer], blame: &mut Blame) -> u32 {
    expect_same();
    // SAFETY: the call reads `data` and `ids` within their lengths and writes a blame and the
    // row's answers, whose layout is C's and of which any bytes are values; all of it is borrowed
    // for the call.
    unsafe {
        barrowtide_prove_page(
            data.as_ptr(),
            data.len(),
            ids.as_ptr(),
            ids.len(),
            row.as_mut_ptr(),
            row.len(),
            blame,
        )
    }
}
