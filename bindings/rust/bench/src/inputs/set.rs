//! Sets of transactions.

use barrowtide::MAX_TRANSACTIONS;
use reference::generate::random::Random;
use reference::generate::set;
use reference::generate::transaction::Plan;
use reference::Hash;

/// As many transactions as a set may have, each of which spends the one before it.
pub fn chain(random: &mut Random) -> Vec<Plan> {
    let before = |number: usize| number.checked_sub(1).into_iter().collect();
    let parents: Vec<Vec<usize>> = (0..MAX_TRANSACTIONS).map(before).collect();
    set::spending(random, &parents)
}

/// Transactions with 400,000 inputs in all, and one more that spends a stranger.
pub fn full(parent: impl Fn(usize) -> Hash) -> Vec<Plan> {
    let others = MAX_TRANSACTIONS - 1;
    let inputs = |number: usize| 400_000 * (number + 1) / others - 400_000 * number / others;
    let parents = |number| (0..inputs(number)).map(&parent).collect::<Vec<_>>();
    let mut plans: Vec<Plan> =
        (0..others).map(|number| transaction(number, &parents(number))).collect();
    plans.push(last());
    plans
}

pub fn last() -> Plan {
    transaction(MAX_TRANSACTIONS - 1, &[[7; 32]])
}

/// For each input a hash that a search by the first bytes of an id would take for it.
pub fn alike(id: Hash) -> impl Fn(usize) -> Hash {
    move |input| {
        let mut hash = id;
        hash[31] ^= 1 + input as u8 % 255;
        hash
    }
}

/// Transactions of one length, so that the set's tells their number.
pub fn of_one_length() -> Vec<Plan> {
    (0..MAX_TRANSACTIONS).map(|number| transaction(number, &[[number as u8; 32]])).collect()
}

/// A transaction that spends these, with a lock time of its own.
fn transaction(number: usize, parents: &[Hash]) -> Plan {
    let inputs = parents.iter().map(|parent| (*parent, 0, Vec::new(), u32::MAX)).collect();
    Plan { version: 1, inputs, outputs: vec![(1, Vec::new())], lock_time: number as u32 }
}
