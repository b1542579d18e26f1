//! BEEF, version 0100BEEF (BRC-62).

use crate::ffi::{self, Blame};
use crate::refusal::{answer, Refusal};

/// What a well-formed BEEF bundle says.
#[derive(Debug, Clone, Copy, PartialEq, Eq)]
pub struct Beef {
    /// The number of BUMPs.
    pub bumps: u64,
    /// The number of transactions, at least 1.
    pub transactions: u64,
}

/// Reads an input that is one BEEF bundle; nothing is judged.
///
/// ```
/// use barrowtide::{hex, read_beef, Beef};
/// let bundle = hex::decode(&std::fs::read_to_string("../tests/data/004-bundle.hex")?).unwrap();
/// assert_eq!(read_beef(&bundle), Ok(Beef { bumps: 1, transactions: 2 }));
/// # Ok::<(), std::io::Error>(())
/// ```
pub fn read_beef(data: &[u8]) -> Result<Beef, Refusal> {
    let (mut blame, mut bumps, mut transactions) = (Blame::default(), 0, 0);
    let number = ffi::read_beef(data, &mut blame, &mut bumps, &mut transactions);
    answer(number, blame, Beef { bumps, transactions })
}
