//! BEEF version 0100BEEF (004).

use crate::bump::{self, Bump};
use crate::fields::Cursor;
use crate::refusal::{
    refuse, Refusal, BAD_FLAG, BAD_INDEX, BAD_VERSION, EMPTY, NO_ROOM, OVER_LIMIT,
};
use crate::transaction::{self, Transaction};

/// The most that an amount, and the running total of a transaction's amounts, may be (02, Item 9).
pub const MAX_TOTAL: u64 = 2_100_000_000_000_000;

/// A transaction of the bundle.
#[derive(Debug, Clone, PartialEq, Eq)]
pub struct Entry {
    /// The raw transaction.
    pub transaction: Transaction,
    /// The number of its BUMP, if it is anchored.
    pub anchor: Option<u64>,
}

/// A bundle's content.
#[derive(Debug, Clone, PartialEq, Eq)]
pub struct Beef {
    /// The BUMPs.
    pub bumps: Vec<Bump>,
    /// The transactions.
    pub entries: Vec<Entry>,
}

/// Reads a bundle without a table: no 22.
pub fn read(data: &[u8]) -> Result<Beef, Refusal> {
    read_into(Cursor::new(data)?, usize::MAX)
}

/// Reads a bundle for a table of `room` records.
pub fn read_into(mut cursor: Cursor, room: usize) -> Result<Beef, Refusal> {
    if cursor.array()? != [0x01, 0x00, 0xbe, 0xef] {
        return refuse(BAD_VERSION, 0);
    }
    let bumps_place = cursor.place();
    let bump_count = cursor.varint()?;
    if bump_count > 64 {
        return refuse(OVER_LIMIT, bumps_place);
    }
    let bumps = (0..bump_count).map(|_| bump::read_at(&mut cursor)).collect::<Result<_, _>>()?;
    let count_place = cursor.place();
    let count = cursor.varint()?;
    if count > 256 {
        return refuse(OVER_LIMIT, count_place);
    }
    if count == 0 {
        return refuse(EMPTY, count_place);
    }
    if count > room as u64 {
        return refuse(NO_ROOM, count_place);
    }
    let entries =
        (0..count).map(|_| read_entry(&mut cursor, bump_count)).collect::<Result<_, _>>()?;
    cursor.end()?;
    Ok(Beef { bumps, entries })
}

fn read_entry(cursor: &mut Cursor, bump_count: u64) -> Result<Entry, Refusal> {
    let transaction = transaction::read_at(cursor, Some(MAX_TOTAL))?;
    let byte_place = cursor.place();
    let anchor = match cursor.byte()? {
        0 => None,
        1 => Some(read_anchor(cursor, bump_count)?),
        _ => return refuse(BAD_FLAG, byte_place),
    };
    Ok(Entry { transaction, anchor })
}

fn read_anchor(cursor: &mut Cursor, bump_count: u64) -> Result<u64, Refusal> {
    let place = cursor.place();
    let number = cursor.varint()?;
    if number >= bump_count {
        return refuse(BAD_INDEX, place);
    }
    Ok(number)
}
