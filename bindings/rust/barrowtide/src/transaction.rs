//! Raw transactions (BRC-12).

use crate::ffi::{self, Blame};
use crate::refusal::{answer, Refusal};
use crate::Hash;

/// What a well-formed raw transaction says.
#[derive(Debug, Clone, Copy, PartialEq, Eq)]
pub struct Transaction {
    /// The number of inputs, at least 1.
    pub inputs: u64,
    /// The number of outputs, at least 1.
    pub outputs: u64,
    /// The transaction's id: the double SHA-256 of its bytes.
    pub id: Hash,
}

/// Reads an input that is one raw transaction.
///
/// ```
/// use barrowtide::{read_transaction, Reason};
/// // A version, and no inputs: the count at place 4 is to blame.
/// let refusal = read_transaction(&[0x01, 0x00, 0x00, 0x00, 0x00]).unwrap_err();
/// assert_eq!((refusal.reason, refusal.carried), (Reason::BadTx, 4));
/// ```
pub fn read_transaction(data: &[u8]) -> Result<Transaction, Refusal> {
    let (mut blame, mut inputs, mut outputs, mut id) = (Blame::default(), 0, 0, [0; 32]);
    let number = ffi::read_transaction(data, &mut blame, &mut inputs, &mut outputs, &mut id);
    answer(number, blame, Transaction { inputs, outputs, id: Hash::from_stored(id) })
}
