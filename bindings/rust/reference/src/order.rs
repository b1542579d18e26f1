//! Putting transactions in order (02, Item 12).

use crate::fields::Cursor;
use crate::refusal::{Refusal, BAD_ORDER, NO_ORDER, NO_ROOM, OVER_LIMIT, SAME_TX};
use crate::transaction::{read_at, Transaction};

/// "Up to 256 raw transactions."
pub const MAX_SET: u64 = 256;

/// A refusal, and the transaction's number that is told beside it: 0 where no byte is to blame.
#[derive(Debug, Clone, Copy, PartialEq, Eq)]
pub struct Fault {
    /// The refusal.
    pub refusal: Refusal,
    /// The number.
    pub transaction: u64,
}

impl From<Refusal> for Fault {
    fn from(refusal: Refusal) -> Self {
        Self { refusal, transaction: 0 }
    }
}

/// Our order with a row of `room` numbers.
pub fn order(data: &[u8], count: u64, room: usize) -> Result<Vec<u64>, Fault> {
    let set = read(data, count)?;
    if room < set.len() {
        return Err(Refusal::new(NO_ROOM, 0).into());
    }
    let parents = parents(&set);
    let mut placed = Vec::new();
    while placed.len() < set.len() {
        // "The first handed in, of those not yet placed, whose parents in the set are placed."
        let next = (0..set.len()).find(|number| {
            !placed.contains(number) && parents[*number].iter().all(|one| placed.contains(one))
        });
        let Some(next) = next else { return Err(Refusal::new(NO_ORDER, 0).into()) };
        placed.push(next);
    }
    Ok(placed.into_iter().map(|number| number as u64).collect())
}

/// Whether a proposal passes.
pub fn check(data: &[u8], count: u64, proposal: &[u64]) -> Result<(), Fault> {
    let set = read(data, count)?;
    let parents = parents(&set);
    let places =
        |number: usize| (0..proposal.len()).filter(move |place| proposal[*place] == number as u64);
    // "It holds every transaction once": each has one place, and there are no others.
    let once = proposal.len() == set.len() && (0..set.len()).all(|one| places(one).count() == 1);
    // "After its parents in the set."
    let after = |child: usize, parent: usize| {
        places(child).all(|later| places(parent).all(|earlier| earlier < later))
    };
    let after = || (0..set.len()).all(|child| parents[child].iter().all(|one| after(child, *one)));
    if once && after() {
        return Ok(());
    }
    Err(Refusal::new(BAD_ORDER, 0).into())
}

/// "5, 1, reading faults with place and transaction number (9: the count), 19."
fn read(data: &[u8], count: u64) -> Result<Vec<Transaction>, Fault> {
    if count > MAX_SET {
        return Err(Refusal::new(OVER_LIMIT, 0).into());
    }
    let mut cursor = Cursor::new(data)?;
    let mut set: Vec<Transaction> = Vec::new();
    for transaction in 0..count {
        let read = read_at(&mut cursor, None);
        set.push(read.map_err(|refusal| Fault { refusal, transaction })?);
    }
    cursor.end().map_err(|refusal| Fault { refusal, transaction: count })?;
    for (number, transaction) in set.iter().enumerate() {
        if set[..number].iter().any(|earlier| earlier.id == transaction.id) {
            return Err(Refusal::new(SAME_TX, 0).into());
        }
    }
    Ok(set)
}

/// The numbers of each transaction's parents in the set.
fn parents(set: &[Transaction]) -> Vec<Vec<usize>> {
    let of = |transaction: &Transaction| {
        let number = |parent| set.iter().position(|other| other.id == parent);
        transaction.inputs.iter().filter_map(|input| number(input.parent)).collect()
    };
    set.iter().map(of).collect()
}
