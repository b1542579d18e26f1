//! Raw transactions that arrive in parts (02, Item 10).

use crate::fields::Cursor;
use crate::refusal::{refuse, Refusal, SHORT, TOO_LONG};
use crate::transaction::read_at;
use crate::Hash;

/// "The size raised to 4,294,967,295 bytes."
pub const MAX_PARTS: usize = 4_294_967_295;

/// "Length, counts and id."
#[derive(Debug, Clone, Copy, PartialEq, Eq)]
pub struct Received {
    /// How many bytes it takes.
    pub length: u64,
    /// How many inputs it has.
    pub inputs: u64,
    /// How many outputs it has.
    pub outputs: u64,
    /// Its id.
    pub id: Hash,
}

/// Reads all the bytes that came, with a size.
pub fn read(bytes: &[u8], size: usize) -> Result<Received, Refusal> {
    if bytes.len() > size {
        // "1, carrying 0, once a byte past the size comes and the bytes before it show no fault,
        // ahead of 9 at that byte": that the bytes before it end is no fault.
        return match read(&bytes[..size], size) {
            Err(refusal) if refusal.number != SHORT => Err(refusal),
            _ => refuse(TOO_LONG, 0),
        };
    }
    let mut cursor = Cursor::unlimited(bytes);
    let transaction = read_at(&mut cursor, None)?;
    cursor.end()?;
    Ok(Received {
        length: transaction.length as u64,
        inputs: transaction.inputs.len() as u64,
        outputs: transaction.outputs.len() as u64,
        id: transaction.id,
    })
}

/// A reader that keeps all bytes and reads them anew at each call.
#[derive(Debug, Clone, Default)]
pub struct Reader {
    bytes: Vec<u8>,
    answer: Option<Result<Received, Refusal>>,
}

impl Reader {
    /// A part: an answer, if there is one by now. "2 only at the end call."
    pub fn part(&mut self, part: &[u8]) -> Option<Result<Received, Refusal>> {
        if self.answer.is_none() {
            self.bytes.extend(part);
            let told = read(&self.bytes, MAX_PARTS).err();
            self.answer = told.filter(|refusal| refusal.number != SHORT).map(Err);
        }
        self.answer
    }

    /// The end call. "After a refusal or the end call the state repeats that answer to every call."
    pub fn end(&mut self) -> Result<Received, Refusal> {
        let answer = self.answer.unwrap_or_else(|| read(&self.bytes, MAX_PARTS));
        self.answer = Some(answer);
        answer
    }
}

#[cfg(test)]
mod tests {
    use super::*;
    use crate::hex::expand;

    /// 1 against 2, 9, 11 and acceptance about the size.
    #[test]
    fn sizes() {
        let small = expand("01 00 00 00 01 [aa] 00 00 00 00 00 ff{4} 01 e8 03 00{6} 00 00{4}");
        let longer = [&small[..], &[0]].concat();
        let number = |bytes: &[u8], size| read(bytes, size).map_or_else(|told| told.number, |_| 0);
        assert_eq!([60, 59, 5].map(|size| number(&small, size)), [0, 1, 1]);
        assert_eq!([61, 60, 59].map(|size| number(&longer, size)), [9, 1, 1]);
        assert_eq!([60, 5, 4].map(|size| number(&[1, 0, 0, 0, 0, 7], size)), [11, 11, 1]);
        assert_eq!([60, 5, 4].map(|size| number(&small[..5], size)), [2, 2, 1]);
    }
}
