//! Judging a bundle.

use std::mem::offset_of;

use crate::version::expect_same;
use crate::{Blame, Stored};

extern "C" {
    fn barrowtide_judge_beef(
        data: *const u8,
        len: usize,
        roots: *const u8,
        roots_len: usize,
        fee: u64,
        table: *mut Record,
        table_len: usize,
        blame: *mut Blame,
        transactions: *mut u64,
        work: *mut u64,
    ) -> u32;
}

/// `barrowtide_record`: what an accepted bundle says of one of its transactions.
#[derive(Debug, Clone, Copy, Default, PartialEq, Eq)]
#[repr(C)]
pub struct Record {
    /// The place of its first byte in the bundle.
    pub start: u64,
    /// How many bytes it takes.
    pub length: u64,
    /// Its id.
    pub id: Stored,
    /// The number of the BUMP that anchors it, counted from 0; 0 if it is not anchored.
    pub bump: u32,
    /// 1 if a BUMP of the bundle anchors it in a trusted root, else 0.
    pub anchored: u32,
    /// Its position in the block; 0 if it is not anchored.
    pub position: u64,
    /// How many outputs it has.
    pub outputs: u64,
    /// What they come to, in satoshi.
    pub total: u64,
}

/// Its size and fields.
const _: () = assert!(size_of::<Record>() == 80);
const _: () = assert!(offset_of!(Record, start) == 0);
const _: () = assert!(offset_of!(Record, length) == 8);
const _: () = assert!(offset_of!(Record, id) == 16);
const _: () = assert!(offset_of!(Record, bump) == 48);
const _: () = assert!(offset_of!(Record, anchored) == 52);
const _: () = assert!(offset_of!(Record, position) == 56);
const _: () = assert!(offset_of!(Record, outputs) == 64);
const _: () = assert!(offset_of!(Record, total) == 72);

/// `barrowtide_judge_beef`: a bundle against a list of roots and a fee, into a lent table. The work
/// is written whatever the answer.
pub fn judge_beef(
    data: &[u8],
    roots: &[u8],
    fee: u64,
    table: &mut [Record],
    blame: &mut Blame,
    transactions: &mut u64,
    work: &mut u64,
) -> u32 {
    expect_same();
    // SAFETY: the call reads `data` and `roots` within their lengths and writes a blame, two u64
    // and the table's records, whose layout is C's; all of it is borrowed for the call.
    unsafe {
        barrowtide_judge_beef(
            data.as_ptr(),
            data.len(),
            roots.as_ptr(),
            roots.len(),
            fee,
            table.as_mut_ptr(),
            table.len(),
            blame,
            transactions,
            work,
        )
    }
}
