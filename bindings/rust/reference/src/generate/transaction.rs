//! Raw transactions.

use super::draft::Draft;
use super::random::Random;
use crate::beef::MAX_TOTAL;
use crate::sha256::sha256d;
use crate::Hash;

/// A raw transaction to write.
#[derive(Debug, Clone)]
pub struct Plan {
    /// The version.
    pub version: u32,
    /// Each input's parent, output number, script and sequence.
    pub inputs: Vec<(Hash, u32, Vec<u8>, u32)>,
    /// Each output's amount and script.
    pub outputs: Vec<(u64, Vec<u8>)>,
    /// The lock time.
    pub lock_time: u32,
}

/// An output to spend: its transaction's id, and its number there.
pub type Outpoint = (Hash, u32);

impl Plan {
    /// A transaction that spends these outputs and pays these amounts; it has not 64 bytes.
    pub fn spending(random: &mut Random, outpoints: &[Outpoint], amounts: &[u64]) -> Self {
        let inputs = outpoints
            .iter()
            .map(|(parent, output)| (*parent, *output, script(random), random.bits() as u32))
            .collect();
        let outputs = amounts.iter().map(|amount| (*amount, script(random))).collect();
        let version = random.pick(&[1, 2]);
        let mut plan = Self { version, inputs, outputs, lock_time: random.bits() as u32 };
        if plan.draft().bytes.len() == 64 {
            plan.outputs[0].1.push(0x51);
        }
        plan
    }

    /// A transaction of one to three inputs whose parents nobody knows, with amounts that a bundle
    /// takes.
    pub fn mined(random: &mut Random) -> Self {
        let amounts = amounts(random);
        let outpoints = unknown(random);
        Self::spending(random, &outpoints, &amounts)
    }

    /// The same with any amounts.
    pub fn random(random: &mut Random) -> Self {
        let amounts: Vec<u64> = (0..random.within(1..=3)).map(|_| random.number()).collect();
        let outpoints = unknown(random);
        Self::spending(random, &outpoints, &amounts)
    }

    /// Leaves one input and one output, with scripts that bring it to this length, 60 to 560.
    pub fn shrink(&mut self, random: &mut Random, length: usize) {
        self.inputs.truncate(1);
        self.outputs.truncate(1);
        let scripts = length - 60;
        let first = random.within(scripts.saturating_sub(250) as u64..=scripts.min(250) as u64);
        self.inputs[0].2 = random.bytes(first as usize);
        self.outputs[0].1 = random.bytes(scripts - first as usize);
    }

    /// The fields of a transaction of 64 bytes, which is none.
    pub fn node_sized(random: &mut Random) -> Self {
        let mut plan = Self::mined(random);
        plan.shrink(random, 64);
        plan
    }

    /// What its outputs come to.
    pub fn total(&self) -> u128 {
        self.outputs.iter().map(|output| u128::from(output.0)).sum()
    }

    /// Its bytes.
    pub fn draft(&self) -> Draft {
        let mut draft = Draft::default();
        draft.raw(&self.version.to_le_bytes());
        draft.varint(self.inputs.len() as u64);
        for (parent, output, script, sequence) in &self.inputs {
            draft.raw(parent);
            draft.raw(&output.to_le_bytes());
            draft.varint(script.len() as u64);
            draft.raw(script);
            draft.raw(&sequence.to_le_bytes());
        }
        draft.varint(self.outputs.len() as u64);
        for (amount, script) in &self.outputs {
            draft.raw(&amount.to_le_bytes());
            draft.varint(script.len() as u64);
            draft.raw(script);
        }
        draft.raw(&self.lock_time.to_le_bytes());
        draft
    }

    /// Its id.
    pub fn id(&self) -> Hash {
        sha256d(&self.draft().bytes)
    }
}

/// Outputs of one to three transactions that nobody knows.
fn unknown(random: &mut Random) -> Vec<Outpoint> {
    (0..random.within(1..=3)).map(|_| (random.hash(), random.bits() as u32 % 3)).collect()
}

/// One to three amounts: nothing, a few satoshi, some coins, or all that there is. Together they come
/// to no more than [`MAX_TOTAL`].
pub fn amounts(random: &mut Random) -> Vec<u64> {
    let mut left = MAX_TOTAL;
    (0..random.within(1..=3))
        .map(|_| {
            let amount = match random.within(0..=9) {
                0 => 0,
                1 => left,
                2 | 3 => random.within(1..=9),
                _ => random.within(1_000..=1_000_000_000),
            };
            let amount = amount.min(left);
            left -= amount;
            amount
        })
        .collect()
}

/// A script: often none or short, now and then longer than one VarInt byte can say.
fn script(random: &mut Random) -> Vec<u8> {
    let length = match random.within(0..=15) {
        0 => random.within(250..=260),
        1..=5 => random.within(0..=2),
        _ => random.within(20..=110),
    };
    random.bytes(length as usize)
}
