//! Raw transactions (004, by BRC-12).

use std::ops::Range;

use crate::fields::Cursor;
use crate::refusal::{refuse, Refusal, BAD_AMOUNT, BAD_TX};
use crate::sha256::sha256d;
use crate::Hash;

/// An input of a transaction.
#[derive(Debug, Clone, PartialEq, Eq)]
pub struct Input {
    /// The parent's id.
    pub parent: Hash,
    /// The number of the parent's output.
    pub output: u32,
    /// Where the script stands.
    pub script: Range<usize>,
    /// The sequence number.
    pub sequence: u32,
}

/// An output of a transaction.
#[derive(Debug, Clone, PartialEq, Eq)]
pub struct Output {
    /// The amount.
    pub amount: u64,
    /// Where the script stands.
    pub script: Range<usize>,
}

/// A transaction's content.
#[derive(Debug, Clone, PartialEq, Eq)]
pub struct Transaction {
    /// The place of its first byte.
    pub start: usize,
    /// How many bytes it takes.
    pub length: usize,
    /// The version.
    pub version: u32,
    /// The inputs.
    pub inputs: Vec<Input>,
    /// The outputs.
    pub outputs: Vec<Output>,
    /// The lock time.
    pub lock_time: u32,
    /// The hash of exactly its bytes.
    pub id: Hash,
}

impl Transaction {
    /// What its outputs come to.
    pub fn total(&self) -> u128 {
        self.outputs.iter().map(|output| u128::from(output.amount)).sum()
    }
}

/// Reads an input that is one raw transaction.
pub fn read(data: &[u8]) -> Result<Transaction, Refusal> {
    let mut cursor = Cursor::new(data)?;
    let transaction = read_at(&mut cursor, None)?;
    cursor.end()?;
    Ok(transaction)
}

/// Reads a raw transaction that other bytes may follow, with the most that its amounts may come to if
/// they have a limit.
pub fn read_at(cursor: &mut Cursor, most: Option<u64>) -> Result<Transaction, Refusal> {
    let mut from_start = cursor.clone();
    let start = cursor.place();
    let version = u32::from_le_bytes(cursor.array()?);
    let inputs = some(cursor, |cursor| {
        Ok(Input {
            parent: cursor.hash()?,
            output: u32::from_le_bytes(cursor.array()?),
            script: script(cursor)?,
            sequence: u32::from_le_bytes(cursor.array()?),
        })
    })?;
    let mut total = 0;
    let outputs = some(cursor, |cursor| {
        let amount_place = cursor.place();
        let amount = u64::from_le_bytes(cursor.array()?);
        total += u128::from(amount);
        if most.is_some_and(|most| amount > most || total > u128::from(most)) {
            return refuse(BAD_AMOUNT, amount_place);
        }
        Ok(Output { amount, script: script(cursor)? })
    })?;
    let lock_time = u32::from_le_bytes(cursor.array()?);
    let length = cursor.place() - start;
    // "Refuse any raw transaction of exactly 64 bytes": "11 at the transaction's first byte, after
    // its last field is read" (02, Item 13).
    if length == 64 {
        return refuse(BAD_TX, start);
    }
    let id = sha256d(from_start.bytes(length as u64)?);
    Ok(Transaction { start, length, version, inputs, outputs, lock_time, id })
}

/// A count, at least one, and as many items.
fn some<'a, T>(
    cursor: &mut Cursor<'a>,
    mut item: impl FnMut(&mut Cursor<'a>) -> Result<T, Refusal>,
) -> Result<Vec<T>, Refusal> {
    let count_place = cursor.place();
    let count = cursor.varint()?;
    if count == 0 {
        return refuse(BAD_TX, count_place);
    }
    (0..count).map(|_| item(cursor)).collect()
}

/// A script's length and the script; where the script stands.
fn script(cursor: &mut Cursor) -> Result<Range<usize>, Refusal> {
    let length = cursor.varint()?;
    let start = cursor.place();
    cursor.bytes(length)?;
    Ok(start..cursor.place())
}
