//! Fields of bytes that the library has read, walked once more for showing them. Whether anything is
//! accepted is the library's word alone.

use barrowtide::{read_varint, Hash};

/// What is left of some bytes, and where it starts.
pub struct Cursor<'a> {
    rest: &'a [u8],
    place: usize,
}

impl<'a> Cursor<'a> {
    pub fn new(data: &'a [u8]) -> Self {
        Self { rest: data, place: 0 }
    }

    /// The place of the next byte.
    pub fn place(&self) -> usize {
        self.place
    }

    pub fn is_at_end(&self) -> bool {
        self.rest.is_empty()
    }

    pub fn bytes(&mut self, count: u64) -> Option<&'a [u8]> {
        let count = usize::try_from(count).ok()?;
        let (first, rest) = self.rest.split_at_checked(count)?;
        self.rest = rest;
        self.place += count;
        Some(first)
    }

    pub fn array<const N: usize>(&mut self) -> Option<[u8; N]> {
        self.bytes(N as u64)?.try_into().ok()
    }

    pub fn byte(&mut self) -> Option<u8> {
        self.array().map(|[byte]| byte)
    }

    pub fn number(&mut self) -> Option<u64> {
        let number = read_varint(self.rest).ok()?;
        self.bytes(number.width)?;
        Some(number.value)
    }

    pub fn hash(&mut self) -> Option<Hash> {
        self.array().map(Hash::from_stored)
    }
}
