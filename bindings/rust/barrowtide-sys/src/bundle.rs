//! Reading raw transactions, TSC proofs and BEEF bundles.

use crate::{Blame, Stored};

extern "C" {
    fn barrowtide_read_transaction(
        data: *const u8,
        len: usize,
        blame: *mut Blame,
        inputs: *mut u64,
        outputs: *mut u64,
        id: *mut u8,
    ) -> u32;
    fn barrowtide_read_tsc(
        data: *const u8,
        len: usize,
        blame: *mut Blame,
        flags: *mut u64,
        index: *mut u64,
        nodes: *mut u64,
    ) -> u32;
    fn barrowtide_read_beef(
        data: *const u8,
        len: usize,
        blame: *mut Blame,
        bumps: *mut u64,
        transactions: *mut u64,
    ) -> u32;
}

/// `barrowtide_read_transaction`: an input that is one raw transaction.
pub fn read_transaction(
    data: &[u8],
    blame: &mut Blame,
    inputs: &mut u64,
    outputs: &mut u64,
    id: &mut Stored,
) -> u32 {
    let id = id.as_mut_ptr();
    // SAFETY: the call reads `data` within its length and writes a blame, two u64 and 32 bytes,
    // all of which are borrowed for the call.
    unsafe { barrowtide_read_transaction(data.as_ptr(), data.len(), blame, inputs, outputs, id) }
}

/// `barrowtide_read_tsc`: an input that is one TSC proof.
pub fn read_tsc(
    data: &[u8],
    blame: &mut Blame,
    flags: &mut u64,
    index: &mut u64,
    nodes: &mut u64,
) -> u32 {
    // SAFETY: the call reads `data` within its length and writes a blame and three u64, all of
    // which are borrowed for the call.
    unsafe { barrowtide_read_tsc(data.as_ptr(), data.len(), blame, flags, index, nodes) }
}

/// `barrowtide_read_beef`: an input that is one BEEF bundle.
pub fn read_beef(data: &[u8], blame: &mut Blame, bumps: &mut u64, transactions: &mut u64) -> u32 {
    // SAFETY: the call reads `data` within its length and writes a blame and two u64, all of which
    // are borrowed for the call.
    unsafe { barrowtide_read_beef(data.as_ptr(), data.len(), blame, bumps, transactions) }
}
