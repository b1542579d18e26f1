//! Bytes under construction, with the fields they are made of, so that damage can aim at a field.

use std::ops::Range;

/// What kind of field a range of bytes is.
#[derive(Debug, Clone, Copy, PartialEq, Eq)]
pub enum Kind {
    /// A VarInt.
    VarInt(u64),
    /// A single byte with a meaning: flags, a height, a node type.
    Byte,
    /// Bytes of a known number.
    Raw,
}

/// Bytes and their fields.
#[derive(Debug, Clone, Default)]
pub struct Draft {
    /// The bytes.
    pub bytes: Vec<u8>,
    /// Each field's range and kind, in order.
    pub fields: Vec<(Range<usize>, Kind)>,
}

impl Draft {
    /// Appends a VarInt in its shortest form.
    pub fn varint(&mut self, value: u64) {
        self.field(&varint(value), Kind::VarInt(value));
    }

    /// Appends a single byte.
    pub fn byte(&mut self, byte: u8) {
        self.field(&[byte], Kind::Byte);
    }

    /// Appends bytes.
    pub fn raw(&mut self, bytes: &[u8]) {
        self.field(bytes, Kind::Raw);
    }

    /// Appends another draft.
    pub fn append(&mut self, other: &Draft) {
        let shift = self.bytes.len();
        self.bytes.extend(&other.bytes);
        let moved =
            |(range, kind): &(Range<usize>, Kind)| (range.start + shift..range.end + shift, *kind);
        self.fields.extend(other.fields.iter().map(moved));
    }

    fn field(&mut self, bytes: &[u8], kind: Kind) {
        let start = self.bytes.len();
        self.bytes.extend(bytes);
        self.fields.push((start..self.bytes.len(), kind));
    }
}

/// A VarInt in its shortest form.
pub fn varint(value: u64) -> Vec<u8> {
    match value {
        0..=0xfc => vec![value as u8],
        0xfd..=0xffff => wide_varint(value, 2),
        0x1_0000..=0xffff_ffff => wide_varint(value, 4),
        _ => wide_varint(value, 8),
    }
}

/// A VarInt of a first byte and 2, 4 or 8 more, shortest or not; the value's upper bytes may get
/// lost.
pub fn wide_varint(value: u64, width: usize) -> Vec<u8> {
    let first = match width {
        2 => 0xfd,
        4 => 0xfe,
        _ => 0xff,
    };
    [&[first], &value.to_le_bytes()[..width]].concat()
}
