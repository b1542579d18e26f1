//! Bundles.

use reference::generate::bundle::Plan;
use reference::generate::random::Random;
use reference::generate::tree::Tree;
use reference::generate::{path, transaction};
use reference::Hash;

use super::path::{buried, copied, falling, ids_alone, two_parts};
use crate::stored::prove_bump;

/// A bundle with one anchored transaction and a chain of others that spend from it.
pub fn chain(random: &mut Random, count: usize) -> Plan {
    chain_of(random, count, |_, next| next)
}

/// The same, of transactions of 250 bytes.
pub fn chain_of_250_bytes(random: &mut Random, count: usize) -> Plan {
    chain_of(random, count, |random, mut next| {
        next.inputs[0].2.clear();
        next.outputs = vec![(next.outputs[0].0, random.bytes(25)), (0, random.bytes(25))];
        next.inputs[0].2 = random.bytes(250 - next.draft().bytes.len());
        next
    })
}

/// The same, of transactions that are changed as they are made. Each spends the first output of the
/// one before it and leaves a satoshi.
fn chain_of(
    random: &mut Random,
    count: usize,
    changed: impl Fn(&mut Random, transaction::Plan) -> transaction::Plan,
) -> Plan {
    let spending = |random: &mut Random, parent: Hash, pays: usize| {
        let next = transaction::Plan::spending(random, &[(parent, 0)], &[pays as u64, 0]);
        changed(random, next)
    };
    let unknown = random.hash();
    let first = spending(random, unknown, count);
    let mut ids: Vec<Hash> = (0..1_000).map(|_| random.hash()).collect();
    ids[500] = first.id();
    let tree = Tree::new(ids);
    let mut last = first.id();
    let mut entries = vec![(first, Some(0))];
    while entries.len() < count {
        let next = spending(random, last, count - entries.len());
        last = next.id();
        entries.push((next, None));
    }
    Plan { bumps: vec![path::Plan::of(&tree, &[500])], entries, roots: vec![tree.root()], fee: 0 }
}

/// A transaction that is mined by a path of copies, and one that spends it.
pub fn spent_once(random: &mut Random, mined: transaction::Plan) -> Plan {
    let id = mined.id();
    let path = copied(64, id);
    let root = prove_bump(&path.bump().bytes, &id).expect("a sound path").root;
    let child = transaction::Plan::spending(random, &[(id, 0)], &[1]);
    let entries = vec![(mined, Some(0)), (child, None)];
    Plan { bumps: vec![path], entries, roots: vec![root], fee: 0 }
}

/// A transaction, and the number of the BUMP that it is anchored in.
type Entry = (transaction::Plan, Option<u64>);

/// 256 transactions to anchor in one BUMP.
fn mined(random: &mut Random) -> Vec<Entry> {
    (0..256).map(|_| (transaction::Plan::mined(random), Some(0))).collect()
}

fn ids(entries: &[Entry]) -> Vec<Hash> {
    entries.iter().map(|entry| entry.0.id()).collect()
}

/// 256 transactions anchored in one BUMP, which has the 1,024 ids of their block as client leaves, in
/// order, and nothing else.
pub fn clients_alone(random: &mut Random) -> Plan {
    let entries = mined(random);
    let mut ids = ids(&entries);
    ids.resize_with(1_024, || random.hash());
    random.shuffle(&mut ids);
    let tree = Tree::new(ids);
    let all: Vec<u64> = (0..1_024).collect();
    let bumps = vec![ids_alone(path::Plan::of(&tree, &all))];
    Plan { bumps, entries, roots: vec![tree.root()], fee: 0 }
}

/// 256 transactions anchored in the path of [`two_parts`], which has as many other clients.
pub fn in_two_parts(random: &mut Random, missing: bool) -> Plan {
    let entries = mined(random);
    let mut ids = ids(&entries);
    ids.resize_with(512, || random.hash());
    let path = two_parts(random, &ids, missing);
    let proof = prove_bump(&path.bump().bytes, &ids[0]);
    let roots = proof.into_iter().map(|proof| proof.root).collect();
    Plan { bumps: vec![path], entries, roots, fee: 0 }
}

/// 256 transactions anchored in one BUMP of so many full levels.
pub fn anchored_in_one(random: &mut Random, height: u32) -> Plan {
    let entries = mined(random);
    let tree = Tree::new(ids(&entries));
    let positions: Vec<u64> = (0..256).collect();
    let (bump, root) = buried(&tree, &positions, height);
    Plan { bumps: vec![bump], entries, roots: vec![root], fee: 0 }
}

/// Transactions of one block with so many outputs of one satoshi each.
fn with_outputs(random: &mut Random, counts: &[usize]) -> Plan {
    let with = |&count: &usize| {
        let mut parent = transaction::Plan::spending(random, &[([7; 32], 0)], &[1]);
        parent.outputs = vec![(1, Vec::new()); count];
        (parent, Some(0))
    };
    let entries: Vec<_> = counts.iter().map(with).collect();
    let tree = Tree::new(ids(&entries));
    let positions: Vec<u64> = (0..counts.len() as u64).collect();
    let bumps = vec![path::Plan::of(&tree, &positions)];
    Plan { bumps, entries, roots: vec![tree.root()], fee: 0 }
}

/// Adds a transaction that spends outputs of others, and pays nothing.
fn spend(plan: &mut Plan, random: &mut Random, outputs: impl Iterator<Item = (usize, u32)>) {
    let ids = ids(&plan.entries);
    let mut greedy = transaction::Plan::spending(random, &[], &[0]);
    greedy.inputs = outputs.map(|(entry, output)| (ids[entry], output, Vec::new(), 0)).collect();
    plan.entries.push((greedy, None));
}

/// The order of inputs.
#[derive(Clone, Copy)]
pub enum Order {
    Parents,
    Any,
}

impl Order {
    pub fn words(self) -> &'static str {
        match self {
            Order::Parents => "in order",
            Order::Any => "in any order",
        }
    }
}

/// 255 transactions with 1,300 outputs each, and one that spends all of them: as many as an input
/// holds.
pub fn all_spent(random: &mut Random, order: Order) -> Plan {
    let mut plan = with_outputs(random, &[1_300; 255]);
    let mut outputs: Vec<(usize, u32)> =
        (0..255).flat_map(|entry| (0..1_300).map(move |output| (entry, output))).collect();
    if let Order::Any = order {
        random.shuffle(&mut outputs);
    }
    spend(&mut plan, random, outputs.into_iter());
    plan
}

/// 255 transactions with 932,000 outputs, and one that spends 200,000 of the first two of them, from
/// one and the other in turn.
pub fn two_in_turn(random: &mut Random) -> Plan {
    let mut counts = vec![100_000; 2];
    counts.resize(255, 732_000 / 253);
    let mut plan = with_outputs(random, &counts);
    let outputs = (0..200_000).map(|number| (number % 2, number as u32 / 2));
    spend(&mut plan, random, outputs);
    plan
}

/// A transaction with 400,000 inputs that all spend one output of the first of 255.
pub fn one_spent(random: &mut Random) -> Plan {
    let mut plan = with_outputs(random, &[1; 255]);
    spend(&mut plan, random, (0..400_000).map(|_| (0, 0)));
    plan
}

/// A small sound bundle with more BUMPs that no transaction names, as many as an input holds.
pub fn many_bumps(random: &mut Random, count: usize, height: u32) -> Plan {
    let mut plan = chain(random, 2);
    plan.bumps.resize(count, falling(height, true));
    plan
}
