//! Comparing two proofs.

use crate::{Blame, Stored};

extern "C" {
    fn barrowtide_compare(
        first_form: u32,
        first: *const u8,
        first_len: usize,
        first_id: *const u8,
        second_form: u32,
        second: *const u8,
        second_len: usize,
        second_id: *const u8,
        blame: *mut Blame,
        first_string: *mut u8,
        second_string: *mut u8,
    ) -> u32;
    fn barrowtide_compare_depths(
        first_form: u32,
        first: *const u8,
        first_len: usize,
        first_id: *const u8,
        second_form: u32,
        second: *const u8,
        second_len: usize,
        second_id: *const u8,
        transaction: *const u8,
        transaction_len: usize,
        blame: *mut Blame,
        first_is_transaction: *mut u64,
        first_string: *mut u8,
        second_string: *mut u8,
    ) -> u32;
}

/// A proof as the call takes it.
#[derive(Debug, Clone, Copy)]
pub struct Lent<'a> {
    /// 0 for a BUMP, 1 for a compound path, any other number for a TSC proof.
    pub form: u32,
    /// The proof's bytes.
    pub data: &'a [u8],
    /// The id to prove; not looked at for a TSC proof.
    pub id: &'a Stored,
}

/// `barrowtide_compare`: the 64 bytes that each of two proofs hashed where they first meet.
pub fn compare(
    first: Lent,
    second: Lent,
    blame: &mut Blame,
    first_string: &mut [u8; 64],
    second_string: &mut [u8; 64],
) -> u32 {
    // SAFETY: the call reads both proofs within their lengths and the ids' 32 bytes, and writes a
    // blame and twice 64 bytes, all of which are borrowed for the call.
    unsafe {
        barrowtide_compare(
            first.form,
            first.data.as_ptr(),
            first.data.len(),
            first.id.as_ptr(),
            second.form,
            second.data.as_ptr(),
            second.data.len(),
            second.id.as_ptr(),
            blame,
            first_string.as_mut_ptr(),
            second_string.as_mut_ptr(),
        )
    }
}

/// `barrowtide_compare_depths`: what each of two proofs of different numbers of layers hashed where
/// they first meet, the one with fewer layers first, whose raw transaction is lent.
/// `first_is_transaction` becomes 1 if the first is that transaction, and `first_string` then stays
/// as it was; else 0.
pub fn compare_depths(
    first: Lent,
    second: Lent,
    transaction: &[u8],
    blame: &mut Blame,
    first_is_transaction: &mut u64,
    first_string: &mut [u8; 64],
    second_string: &mut [u8; 64],
) -> u32 {
    // SAFETY: the call reads both proofs and the transaction within their lengths and the ids' 32
    // bytes, and writes a blame, a number and twice 64 bytes, all of which are borrowed for the call.
    unsafe {
        barrowtide_compare_depths(
            first.form,
            first.data.as_ptr(),
            first.data.len(),
            first.id.as_ptr(),
            second.form,
            second.data.as_ptr(),
            second.data.len(),
            second.id.as_ptr(),
            transaction.as_ptr(),
            transaction.len(),
            blame,
            first_is_transaction,
            first_string.as_mut_ptr(),
            second_string.as_mut_ptr(),
        )
    }
}
