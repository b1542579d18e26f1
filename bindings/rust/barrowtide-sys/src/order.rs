//! Putting transactions in order.

use crate::Blame;

extern "C" {
    fn barrowtide_order(
        data: *const u8,
        len: usize,
        count: u64,
        row: *mut u64,
        row_len: usize,
        blame: *mut Blame,
        transaction: *mut u64,
    ) -> u32;
    fn barrowtide_check_order(
        data: *const u8,
        len: usize,
        count: u64,
        proposal: *const u64,
        proposal_len: usize,
        blame: *mut Blame,
        transaction: *mut u64,
    ) -> u32;
}

/// `barrowtide_order`: the library's order of so many transactions, into a lent row.
pub fn order(
    data: &[u8],
    count: u64,
    row: &mut [u64],
    blame: &mut Blame,
    transaction: &mut u64,
) -> u32 {
    let (row, row_len) = (row.as_mut_ptr(), row.len());
    // SAFETY: the call reads `data` within its length and writes the row within its, a blame and a
    // u64; all of it is borrowed for the call.
    unsafe { barrowtide_order(data.as_ptr(), data.len(), count, row, row_len, blame, transaction) }
}

/// `barrowtide_check_order`: whether a proposal is an order of so many transactions.
pub fn check_order(
    data: &[u8],
    count: u64,
    proposal: &[u64],
    blame: &mut Blame,
    transaction: &mut u64,
) -> u32 {
    let (numbers, numbers_len) = (proposal.as_ptr(), proposal.len());
    // SAFETY: the call reads `data` and the proposal within their lengths and writes a blame and a
    // u64; all of it is borrowed for the call.
    unsafe {
        barrowtide_check_order(
            data.as_ptr(),
            data.len(),
            count,
            numbers,
            numbers_len,
            blame,
            transaction,
        )
    }
}
