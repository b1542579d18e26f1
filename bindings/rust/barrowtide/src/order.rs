//! Putting transactions in order, parents first.

use crate::ffi::{self, Blame};
use crate::refusal::{answer, Refusal};
use crate::MAX_TRANSACTIONS;

/// Puts raw transactions in order, and fills the front of a lent row with their numbers.
///
/// As [`order`]; what the row holds past the set stays, and a refusal zeroes all of it. Refused
/// beside: 22 for a row shorter than the set, after 19.
///
/// ```
/// use barrowtide::{order_into, Reason};
/// let mut row = [7; 3];
/// order_into(&[], 0, &mut row)?;
/// assert_eq!(row, [7, 7, 7]);
/// assert_eq!(order_into(&[0x01], 1, &mut row).unwrap_err().reason, Reason::Short);
/// assert_eq!(row, [0, 0, 0]);
/// # Ok::<(), barrowtide::Refusal>(())
/// ```
pub fn order_into(data: &[u8], count: u64, row: &mut [u64]) -> Result<(), Refusal> {
    let (mut blame, mut transaction) = (Blame::default(), 0);
    let number = ffi::order(data, count, row, &mut blame, &mut transaction);
    answer(number, blame, ()).map_err(|refusal| refusal.in_set(transaction))
}

/// Puts raw transactions in order, parents first, as a BEEF needs them.
///
/// Up to [`MAX_TRANSACTIONS`] transactions stand end to end; `count` says how many. Their order is
/// told by their numbers, counted from 0: each time the first handed in is taken, of those not yet
/// placed, whose parents among them are placed. Parents that are not among them are not asked for.
///
/// Refused: 5 for more transactions, 1, faults in reading with the transaction that they are in
/// ([`Refusal::in_transaction`]), 19, and 29 if no order has parents first.
///
/// ```
/// use barrowtide::{order, read_transaction, Reason};
/// // A transaction of one input and one output that spends another.
/// let spending = |parent: &[u8; 32]| {
///     [&[1, 0, 0, 0, 1][..], parent, &[0; 4], &[0], &[0xff; 4], &[1], &[0; 8], &[0], &[0; 4]].concat()
/// };
/// let parent = spending(&[0xaa; 32]);
/// let child = spending(read_transaction(&parent)?.id.stored());
/// let other = spending(&[0xbb; 32]);
///
/// let set = [&child[..], &other, &parent].concat();
/// assert_eq!(order(&set, 3)?, [1, 2, 0]);
///
/// let refusal = order(&set[..150], 3).unwrap_err();
/// assert_eq!((refusal.reason, refusal.in_transaction), (Reason::Short, Some(2)));
/// # Ok::<(), barrowtide::Refusal>(())
/// ```
pub fn order(data: &[u8], count: u64) -> Result<Vec<u64>, Refusal> {
    let room = count.min(MAX_TRANSACTIONS as u64) as usize;
    let mut row = vec![0; room];
    order_into(data, count, &mut row)?;
    Ok(row)
}

/// Whether a proposed order holds every transaction of a set once, after its parents in the set.
///
/// The set is as for [`order`], whose own orders always pass. Refused as there, but 30 in place of
/// 29 if the proposal fails, whether by its length, by a number or by the order.
///
/// ```
/// use barrowtide::{check_order, read_transaction, Reason};
/// # let spending = |parent: &[u8; 32]| {
/// #     [&[1, 0, 0, 0, 1][..], parent, &[0; 4], &[0], &[0xff; 4], &[1], &[0; 8], &[0], &[0; 4]].concat()
/// # };
/// # let parent = spending(&[0xaa; 32]);
/// # let child = spending(read_transaction(&parent)?.id.stored());
/// let set = [child, parent].concat();
/// check_order(&set, 2, &[1, 0])?;
/// for proposal in [&[0, 1][..], &[1], &[1, 0, 0], &[1, 2]] {
///     assert_eq!(check_order(&set, 2, proposal).unwrap_err().reason, Reason::BadOrder);
/// }
/// # Ok::<(), barrowtide::Refusal>(())
/// ```
pub fn check_order(data: &[u8], count: u64, proposal: &[u64]) -> Result<(), Refusal> {
    let (mut blame, mut transaction) = (Blame::default(), 0);
    let number = ffi::check_order(data, count, proposal, &mut blame, &mut transaction);
    answer(number, blame, ()).map_err(|refusal| refusal.in_set(transaction))
}
