//! "Then fields as they come": a cursor that reads fields, each refused at its own start.

use crate::refusal::{refuse, Refusal, EXTRA, LONG_VARINT, SHORT, TOO_LONG};
use crate::sha256::MAX_INPUT;
use crate::Hash;

/// Where reading stands in an input.
#[derive(Debug, Clone)]
pub struct Cursor<'a> {
    data: &'a [u8],
    at: usize,
}

impl<'a> Cursor<'a> {
    /// The start of an input; 1 if it is over its size.
    pub fn new(data: &'a [u8]) -> Result<Self, Refusal> {
        if data.len() > MAX_INPUT {
            return refuse(TOO_LONG, 0);
        }
        Ok(Self::unlimited(data))
    }

    /// The start of bytes of any number.
    pub fn unlimited(data: &'a [u8]) -> Self {
        Self { data, at: 0 }
    }

    /// The place of the next field.
    pub fn place(&self) -> usize {
        self.at
    }

    /// A field of `length` bytes; 2 if the input ends inside it.
    pub fn bytes(&mut self, length: u64) -> Result<&'a [u8], Refusal> {
        let rest = &self.data[self.at..];
        if length > rest.len() as u64 {
            return refuse(SHORT, self.at);
        }
        self.at += length as usize;
        Ok(&rest[..length as usize])
    }

    /// A field of a fixed size.
    pub fn array<const N: usize>(&mut self) -> Result<[u8; N], Refusal> {
        let bytes = self.bytes(N as u64)?;
        Ok(std::array::from_fn(|i| bytes[i]))
    }

    /// A field of one byte.
    pub fn byte(&mut self) -> Result<u8, Refusal> {
        Ok(self.array::<1>()?[0])
    }

    /// A field of 32 bytes.
    pub fn hash(&mut self) -> Result<Hash, Refusal> {
        self.array()
    }

    /// A VarInt; 2 if its bytes are not all there, then 3 if it is not the shortest.
    pub fn varint(&mut self) -> Result<u64, Refusal> {
        let place = self.at;
        let rest = &self.data[place..];
        let (width, least) = match rest.first() {
            None => return refuse(SHORT, place),
            Some(0xfd) => (2, 0xfd),
            Some(0xfe) => (4, 1 << 16),
            Some(0xff) => (8, 1 << 32),
            Some(&number) => {
                self.at += 1;
                return Ok(u64::from(number));
            }
        };
        let Some(bytes) = rest.get(1..1 + width) else {
            return refuse(SHORT, place);
        };
        let value = bytes.iter().rev().fold(0, |value, byte| value << 8 | u64::from(*byte));
        if value < least {
            return refuse(LONG_VARINT, place);
        }
        self.at += 1 + width;
        Ok(value)
    }

    /// The end of the input; 9 if bytes are left.
    pub fn end(self) -> Result<(), Refusal> {
        if self.at < self.data.len() {
            return refuse(EXTRA, self.at);
        }
        Ok(())
    }
}

/// A VarInt's number and how many bytes it takes.
#[derive(Debug, Clone, Copy, PartialEq, Eq)]
pub struct VarInt {
    /// The number.
    pub value: u64,
    /// 1, 3, 5 or 9.
    pub width: u64,
}

/// The VarInt at the input's start; what stands after it is not looked at.
pub fn read_varint(data: &[u8]) -> Result<VarInt, Refusal> {
    let mut cursor = Cursor::new(data)?;
    let value = cursor.varint()?;
    Ok(VarInt { value, width: cursor.place() as u64 })
}
