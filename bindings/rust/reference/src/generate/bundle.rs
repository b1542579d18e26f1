//! BEEF bundles with their lists of roots and fees.

use std::collections::BTreeMap;

use super::draft::Draft;
use super::path;
use super::random::Random;
use super::transaction::{self, Outpoint};
use super::tree::Tree;
use crate::beef::MAX_TOTAL;
use crate::prove::by_bump;
use crate::Hash;

/// A bundle to write, and what to judge it by.
#[derive(Debug, Clone)]
pub struct Plan {
    /// The BUMPs.
    pub bumps: Vec<path::Plan>,
    /// Each transaction, with the number of its BUMP if it is anchored.
    pub entries: Vec<(transaction::Plan, Option<u64>)>,
    /// The trusted roots.
    pub roots: Vec<Hash>,
    /// The fee.
    pub fee: u64,
}

/// Outputs that no transaction without a BUMP has spent yet, with their amounts.
type Purse = Vec<(Outpoint, u64)>;

impl Plan {
    /// A sound bundle of up to 256 transactions; the last of several is not anchored. Those that are
    /// may spend what others spend.
    pub fn random(random: &mut Random, transactions: u64) -> Self {
        let bump_count = random.within(1..=3);
        let fee = few(random);
        let mut entries: Vec<(transaction::Plan, Option<u64>)> = Vec::new();
        let mut purse = Purse::new();
        for number in 1..=transactions {
            let anchored = number == 1 || (number < transactions && random.one_in(3));
            let mut plan = if anchored {
                transaction::Plan::mined(random)
            } else {
                spending(random, &mut purse, fee)
            };
            // Enough for a fee of each of the others.
            while number == 1 && plan.outputs.iter().all(|output| output.0 < 1_000_000) {
                plan = transaction::Plan::mined(random);
            }
            if anchored && number > 1 && random.one_in(2) {
                let parent = entries[random.index(entries.len())].0.id();
                plan.inputs[0] = (parent, random.within(0..=3) as u32, Vec::new(), 0);
            }
            let id = plan.id();
            let amounts = plan.outputs.iter().map(|output| output.0);
            purse.extend((0..).zip(amounts).map(|(number, amount)| ((id, number), amount)));
            entries.push((plan, anchored.then(|| random.within(0..=bump_count - 1))));
        }
        let mut plan = Self { bumps: Vec::new(), entries, roots: Vec::new(), fee };
        for number in 0..bump_count {
            let anchored = plan.entries.iter().filter(|entry| entry.1 == Some(number));
            let mut block: Vec<Hash> = anchored.map(|entry| entry.0.id()).collect();
            let clients = block.len();
            let others = random.within(2..=20);
            block.extend((0..others).map(|_| random.hash()));
            plan.add_block(random, block, clients);
        }
        if random.one_in(2) {
            plan.roots.push(random.hash());
        }
        random.shuffle(&mut plan.roots);
        plan
    }

    /// Adds a block that holds these ids, the first of them clients, in some order; its root is
    /// trusted. For a single client it may be a path of no block.
    fn add_block(&mut self, random: &mut Random, mut block: Vec<Hash>, clients: usize) {
        let ids = block[..clients].to_vec();
        if clients == 1 && random.one_in(3) {
            let bump = path::Plan::grown(random, ids[0]);
            let climb = by_bump(&bump.bump().bytes, &ids[0]).expect("a sound path");
            self.bumps.push(bump);
            self.roots.push(climb.root());
            return;
        }
        random.shuffle(&mut block);
        let tree = Tree::new(block);
        let place = |id: &Hash| tree.ids().iter().position(|other| other == id);
        let positions: Vec<u64> = ids.iter().filter_map(place).map(|at| at as u64).collect();
        let mut bump = path::Plan::of(&tree, &positions);
        bump.thin(random, &tree);
        bump.vary(random, &tree);
        self.bumps.push(bump);
        self.roots.push(tree.root());
    }

    /// A change that may break the bundle rule.
    pub fn spoil(&mut self, random: &mut Random) {
        let count = self.entries.len();
        if count == 0 {
            return;
        }
        let (one, other) = (random.index(count), random.index(count));
        let bump_count = self.bumps.len() as u64;
        match random.within(0..=16) {
            0 => self.entries.swap(one, other),
            1 => self.entries.push(self.entries[one].clone()),
            2 => drop(self.entries.remove(one)),
            3 => self.entries[one].1 = None,
            4 => self.entries[one].1 = Some(random.within(0..=bump_count)),
            5 => {
                let inputs = &mut self.entries[one].0.inputs;
                let input = random.index(inputs.len());
                inputs[input].0 = random.hash();
            }
            6 => self.entries[one].0.lock_time ^= 1,
            7 | 8 => {
                let bump = random.index(self.bumps.len());
                match random.one_in(2) {
                    true => self.bumps[bump].spoil(random),
                    false => self.bumps[bump].unsettle(random),
                }
            }
            9 => drop(self.roots.pop()),
            10 => self.spend_again(random, one, other),
            11 => self.spend_number(random, one),
            12 => self.change(one, |transaction| {
                let output = random.index(transaction.outputs.len());
                let amount = &mut transaction.outputs[output].0;
                *amount = amount.wrapping_add(random.pick(&[1, 2, 10, 1_000]));
            }),
            13 => self.change(one, |transaction| {
                let output = random.index(transaction.outputs.len());
                let others = transaction.total() - u128::from(transaction.outputs[output].0);
                transaction.outputs[output].0 = amount_at_limit(random, others);
            }),
            14 => self.ask_fee(random, one),
            15 => {
                let length = random.within(63..=65) as usize;
                self.change(one, |transaction| transaction.shrink(random, length));
            }
            _ => {
                let bump = self.bumps[random.index(self.bumps.len())].clone();
                self.bumps.push(bump);
            }
        }
    }

    /// Changes a transaction, and has the later ones without a BUMP that spend from it name its new
    /// id.
    pub fn change(&mut self, entry: usize, change: impl FnOnce(&mut transaction::Plan)) {
        let mut renamed = BTreeMap::new();
        let before = self.entries[entry].0.id();
        change(&mut self.entries[entry].0);
        renamed.insert(before, self.entries[entry].0.id());
        let unanchored = self.entries[entry + 1..].iter_mut().filter(|entry| entry.1.is_none());
        for (transaction, _) in unanchored {
            let before = transaction.id();
            for input in &mut transaction.inputs {
                input.0 = *renamed.get(&input.0).unwrap_or(&input.0);
            }
            renamed.insert(before, transaction.id());
        }
    }

    /// Has a transaction spend, too, what an input of another or of itself spends.
    fn spend_again(&mut self, random: &mut Random, entry: usize, other: usize) {
        let inputs = &self.entries[other].0.inputs;
        let again = inputs[random.index(inputs.len())].clone();
        self.change(entry, |transaction| transaction.inputs.push(again));
    }

    /// Has an input of a transaction name another output, often at the end of its parent's.
    fn spend_number(&mut self, random: &mut Random, entry: usize) {
        let inputs = &self.entries[entry].0.inputs;
        let input = random.index(inputs.len());
        let parent = self.entries.iter().find(|other| other.0.id() == inputs[input].0);
        let count = parent.map_or(1, |parent| parent.0.outputs.len() as u32);
        let number = random.pick(&[count, count, count - 1, count + 1, 0, u32::MAX]);
        self.change(entry, |transaction| transaction.inputs[input].1 = number);
    }

    /// Asks for a fee about what a transaction leaves, or for one that no sum reaches.
    fn ask_fee(&mut self, random: &mut Random, entry: usize) {
        let worth = |(parent, output, _, _): &(Hash, u32, Vec<u8>, u32)| {
            let parent = self.entries.iter().find(|other| other.0.id() == *parent)?;
            parent.0.outputs.get(*output as usize).map(|output| u128::from(output.0))
        };
        let transaction = &self.entries[entry].0;
        let inputs: u128 = transaction.inputs.iter().filter_map(worth).sum();
        let left = inputs.saturating_sub(transaction.total()) as u64;
        let wrapping = u64::MAX - transaction.total() as u64;
        let about = [left, left, left.saturating_sub(1), left.saturating_add(1)];
        let far = [0, wrapping, wrapping.wrapping_add(1), u64::MAX];
        self.fee = random.pick(&[about, far].concat());
    }

    /// Its bytes.
    pub fn draft(&self) -> Draft {
        let mut draft = Draft::default();
        draft.raw(&[0x01, 0x00, 0xbe, 0xef]);
        draft.varint(self.bumps.len() as u64);
        for bump in &self.bumps {
            draft.append(&bump.bump());
        }
        draft.varint(self.entries.len() as u64);
        for (transaction, anchor) in &self.entries {
            draft.append(&transaction.draft());
            draft.byte(u8::from(anchor.is_some()));
            if let Some(number) = anchor {
                draft.varint(*number);
            }
        }
        draft
    }

    /// Its roots end to end.
    pub fn root_list(&self) -> Vec<u8> {
        self.roots.concat()
    }
}

/// None, a few or some satoshi.
fn few(random: &mut Random) -> u64 {
    match random.within(0..=2) {
        0 => 0,
        1 => random.within(1..=9),
        _ => random.within(10..=500),
    }
}

/// A transaction that spends one to three outputs of a purse and leaves more than the fee, often just
/// so much.
fn spending(random: &mut Random, purse: &mut Purse, fee: u64) -> transaction::Plan {
    let worthy: Vec<usize> = (0..purse.len()).filter(|at| purse[*at].1 >= 10_000).collect();
    let richest = (0..purse.len()).max_by_key(|at| purse[*at].1).expect("an output to spend");
    let first = if worthy.is_empty() { richest } else { random.pick(&worthy) };
    let mut spent = vec![purse.swap_remove(first)];
    for _ in 0..random.within(0..=2).min(purse.len() as u64) {
        spent.push(purse.swap_remove(random.index(purse.len())));
    }
    random.shuffle(&mut spent);
    let outpoints: Vec<Outpoint> = spent.iter().map(|spent| spent.0).collect();
    let inputs: u128 = spent.iter().map(|spent| u128::from(spent.1)).sum();
    let left = u128::from(fee + 1 + few(random)).min(inputs);
    let mut rest = (inputs - left).min(MAX_TOTAL.into()) as u64;
    let mut amounts = Vec::new();
    for _ in 0..random.within(0..=2) {
        let amount = random.within(0..=rest);
        amounts.push(amount);
        rest -= amount;
    }
    amounts.push(rest);
    transaction::Plan::spending(random, &outpoints, &amounts)
}

/// An amount in place of another, about the limit, or about what fills it up.
fn amount_at_limit(random: &mut Random, others: u128) -> u64 {
    let rest = u128::from(MAX_TOTAL).saturating_sub(others) as u64;
    random.pick(&[MAX_TOTAL, MAX_TOTAL + 1, rest, rest + 1, u64::MAX, 1 << 63])
}
