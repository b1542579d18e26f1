//! Raw transactions that arrive in parts.

use std::io::{self, Write};

use crate::ffi::{self, Blame, Parts};
use crate::refusal::{answer, Refusal};
use crate::Hash;

/// The greatest number of bytes of a transaction that is read in parts.
pub const MAX_PARTS: u64 = 4_294_967_295;

/// What a transaction that came in parts says.
#[derive(Debug, Clone, Copy, PartialEq, Eq)]
pub struct Received {
    /// The number of its bytes.
    pub length: u64,
    /// The number of inputs, at least 1.
    pub inputs: u64,
    /// The number of outputs, at least 1.
    pub outputs: u64,
    /// The transaction's id: the double SHA-256 of its bytes.
    pub id: Hash,
}

/// Reads one raw transaction of up to [`MAX_PARTS`] bytes in parts, cut anywhere, and keeps 240
/// bytes of it.
///
/// However the bytes are cut, the answer is that of [`read_transaction`](crate::read_transaction)
/// with its size raised, but for 1: this comes at 0 with the first byte past the size, if the bytes
/// before it show no fault, and then ahead of 9. Of other refusals the part that completes the
/// field to blame tells; 2 comes from [`finish`](Self::finish) only.
///
/// Once there is an answer, every further call repeats it and looks at no byte, until
/// [`restart`](Self::restart).
///
/// ```
/// use barrowtide::{read_transaction, Reason, TransactionReader};
/// let parts = [&[0x01, 0x00, 0x00, 0x00, 0x01][..], &[0x00; 41], &[0x01], &[0x00; 13]];
///
/// let mut reader = TransactionReader::new();
/// for part in parts {
///     assert_eq!(reader.push(part), Ok(None));
/// }
/// let received = reader.finish()?;
/// assert_eq!((received.length, received.inputs, received.outputs), (60, 1, 1));
/// assert_eq!(received.id, read_transaction(&parts.concat())?.id);
/// assert_eq!(reader.push(&[0x00]), Ok(Some(received)));
///
/// // A VarInt in two parts that is not the shortest: the second tells.
/// reader.restart();
/// assert_eq!(reader.push(&[0x01, 0x00, 0x00, 0x00, 0xfd, 0x00]), Ok(None));
/// let refusal = reader.push(&[0x00]).unwrap_err();
/// assert_eq!((refusal.reason, refusal.carried), (Reason::LongVarint, 4));
/// assert_eq!(reader.finish(), Err(refusal));
/// # Ok::<(), barrowtide::Refusal>(())
/// ```
///
/// As a [`Write`] it takes what is copied to it; a refusal is an error of the kind
/// [`InvalidData`](io::ErrorKind::InvalidData) that holds the [`Refusal`], and after the end no
/// byte is taken.
///
/// ```
/// use std::io::{self, Read};
/// let file = [0x01, 0x00, 0x00, 0x00, 0x01].chain(&[0x00; 41][..]);
/// let mut file = file.chain(&[0x01][..]).chain(&[0x00; 13][..]);
///
/// let mut reader = barrowtide::TransactionReader::new();
/// io::copy(&mut file, &mut reader)?;
/// assert_eq!(reader.finish()?.length, 60);
/// # Ok::<(), Box<dyn std::error::Error>>(())
/// ```
#[derive(Debug, Clone)]
pub struct TransactionReader {
    state: Parts,
}

impl TransactionReader {
    /// A reader before the first byte.
    pub fn new() -> Self {
        let mut reader = Self { state: Parts::default() };
        reader.restart();
        reader
    }

    /// Starts afresh, for another transaction.
    pub fn restart(&mut self) {
        ffi::parts_start(&mut self.state);
    }

    /// Takes the next part, which may be empty: a refusal; `None` as long as there is nothing to
    /// refuse, also if the bytes so far are a whole transaction; or, after
    /// [`finish`](Self::finish), what that said.
    pub fn push(&mut self, part: &[u8]) -> Result<Option<Received>, Refusal> {
        self.call(|state, blame, length, inputs, outputs, id| {
            ffi::parts_part(state, part, blame, length, inputs, outputs, id)
        })
    }

    /// The end of the bytes: the transaction that they are, or why they are none.
    ///
    /// # Panics
    ///
    /// If the library gives no answer: then it is not the one that this crate is for.
    pub fn finish(&mut self) -> Result<Received, Refusal> {
        let received = self.call(ffi::parts_end)?;
        Ok(received.expect("the end call answers"))
    }

    fn call(
        &mut self,
        call: impl FnOnce(&mut Parts, &mut Blame, &mut u64, &mut u64, &mut u64, &mut ffi::Stored) -> u32,
    ) -> Result<Option<Received>, Refusal> {
        let (mut blame, mut id) = (Blame::default(), [0; 32]);
        let (mut length, mut inputs, mut outputs) = (0, 0, 0);
        let number =
            call(&mut self.state, &mut blame, &mut length, &mut inputs, &mut outputs, &mut id);
        if number == ffi::MORE {
            return Ok(None);
        }
        let received = Received { length, inputs, outputs, id: Hash::from_stored(id) };
        answer(number, blame, Some(received))
    }
}

impl Default for TransactionReader {
    fn default() -> Self {
        Self::new()
    }
}

impl Write for TransactionReader {
    fn write(&mut self, part: &[u8]) -> io::Result<usize> {
        match self.push(part) {
            Ok(None) => Ok(part.len()),
            Ok(Some(_)) => Ok(0),
            Err(refusal) => Err(io::Error::new(io::ErrorKind::InvalidData, refusal)),
        }
    }

    fn flush(&mut self) -> io::Result<()> {
        Ok(())
    }
}
