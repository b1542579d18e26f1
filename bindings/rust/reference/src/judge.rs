//! "The bundle rule", amounts along the bundle (02, Item 9) and its hash work (Item 11).

use std::collections::BTreeSet;

use crate::beef::{self, Beef};
use crate::fields::Cursor;
use crate::prove::climb_path;
use crate::refusal::{
    refuse, Refusal, BAD_ROOTS, NO_OUTPUT, NO_PARENT, SAME_TX, SPENT_TWICE, TOO_LITTLE, UNTRUSTED,
};
use crate::transaction::Transaction;
use crate::work;
use crate::Hash;

/// A record of the lent table.
#[derive(Debug, Clone, Copy, Default, PartialEq, Eq)]
pub struct Record {
    /// Where the transaction starts.
    pub start: u64,
    /// How many bytes it takes.
    pub length: u64,
    /// Its id.
    pub id: Hash,
    /// Whether it is anchored.
    pub anchored: bool,
    /// The number of its BUMP, 0 if not anchored.
    pub bump: u64,
    /// Its position in the block, 0 if not anchored.
    pub position: u64,
    /// How many outputs it has.
    pub outputs: u64,
    /// What they come to.
    pub total: u64,
}

/// What judging comes to.
#[derive(Debug, Clone, PartialEq, Eq)]
pub struct Judged {
    /// The number of transactions.
    pub answer: Result<u64, Refusal>,
    /// The table as it is left.
    pub table: Vec<Record>,
    /// The compressions.
    pub work: u64,
}

/// Judges a bundle against a list of roots and a fee, with a table of `room` records.
pub fn judge(data: &[u8], roots: &[u8], fee: u64, room: usize) -> Judged {
    let mut table = vec![Record::default(); room];
    // "1, 21 and a refusal in reading report 0."
    let mut work = 0;
    let answer = records(data, roots, fee, room, &mut work).map(|records| {
        table[..records.len()].copy_from_slice(&records);
        records.len() as u64
    });
    Judged { answer, table, work }
}

/// The records of an accepted bundle.
fn records(
    data: &[u8],
    roots: &[u8],
    fee: u64,
    room: usize,
    work: &mut u64,
) -> Result<Vec<Record>, Refusal> {
    let cursor = Cursor::new(data)?;
    if roots.len() % 32 != 0 {
        return refuse(BAD_ROOTS, 0);
    }
    let beef = beef::read_into(cursor, room)?;
    // "Ids of all transactions are worked out before judging, each once."
    let lengths = beef.entries.iter().map(|entry| entry.transaction.length);
    *work += lengths.map(work::of_transaction).sum::<u64>();
    let mut records = Vec::new();
    let mut spent = BTreeSet::new();
    for number in 0..beef.entries.len() {
        let judged = judge_one(&beef, roots, fee, &mut spent, number, work);
        let carried = number as u64;
        records.push(judged.map_err(|refusal| Refusal { carried, ..refusal })?);
    }
    Ok(records)
}

/// Outputs that were spent: each its transaction's id and its number there.
type Spent = BTreeSet<(Hash, u32)>;

/// Judges transaction `number` after the earlier ones; its refusal is to carry that number.
fn judge_one(
    beef: &Beef,
    roots: &[u8],
    fee: u64,
    spent: &mut Spent,
    number: usize,
    work: &mut u64,
) -> Result<Record, Refusal> {
    let entry = &beef.entries[number];
    let transaction = &entry.transaction;
    let earlier = |id: &Hash| {
        beef.entries[..number].iter().map(|entry| &entry.transaction).find(|other| other.id == *id)
    };
    if earlier(&transaction.id).is_some() {
        return refuse(SAME_TX, 0);
    }
    let mut record = Record {
        start: transaction.start as u64,
        length: transaction.length as u64,
        id: transaction.id,
        outputs: transaction.outputs.len() as u64,
        total: transaction.total().try_into().expect("no more than MAX_TOTAL"),
        ..Record::default()
    };
    if let Some(bump) = entry.anchor {
        let path = &beef.bumps[bump as usize].path;
        let climb = climb_path(path, &transaction.id);
        *work += work::of_climb(path, &transaction.id, &climb);
        let climb = climb?;
        if !roots.chunks_exact(32).any(|root| root == climb.root()) {
            return refuse(UNTRUSTED, 0);
        }
        record = Record { anchored: true, bump, position: climb.position, ..record };
    } else {
        let parents: Option<Vec<&Transaction>> =
            transaction.inputs.iter().map(|input| earlier(&input.parent)).collect();
        let Some(parents) = parents else { return refuse(NO_PARENT, 0) };
        follow_amounts(transaction, &parents, fee, spent)?;
    }
    Ok(record)
}

/// "Every input's output number exists in its parent, no output is spent twice by such transactions,
/// and inputs come to more than outputs plus a fee", for one that is not anchored, with the parent of
/// each input. What it spends is noted.
fn follow_amounts(
    transaction: &Transaction,
    parents: &[&Transaction],
    fee: u64,
    spent: &mut Spent,
) -> Result<(), Refusal> {
    let mut amounts = Vec::new();
    for (input, parent) in transaction.inputs.iter().zip(parents) {
        match parent.outputs.get(input.output as usize) {
            Some(output) => amounts.push(u128::from(output.amount)),
            None => return refuse(NO_OUTPUT, 0),
        }
    }
    for input in &transaction.inputs {
        if !spent.insert((input.parent, input.output)) {
            return refuse(SPENT_TWICE, 0);
        }
    }
    if amounts.iter().sum::<u128>() <= transaction.total() + u128::from(fee) {
        return refuse(TOO_LITTLE, 0);
    }
    Ok(())
}
