//! TSC proofs.

use super::draft::Draft;
use super::random::Random;
use super::transaction;
use super::tree::Tree;
use crate::climb::{beside, Sibling};
use crate::prove::by_tsc;
use crate::Hash;

/// A TSC proof to write.
#[derive(Debug, Clone)]
pub struct Plan {
    /// The flags byte.
    pub flags: u8,
    /// The index.
    pub index: u64,
    /// The stated length, where the transaction is written.
    pub stated: Option<u64>,
    /// The transaction or the id.
    pub body: Draft,
    /// The target.
    pub target: Vec<u8>,
    /// Each node's type and hash; only type 0 writes the hash.
    pub nodes: Vec<(u8, Hash)>,
}

impl Plan {
    /// The proof of an id of a tree, with the id and the root.
    pub fn of(tree: &Tree, position: u64) -> Self {
        let node = |layer| {
            let offset = beside(position >> layer);
            let copied = tree.node(layer, offset) == Sibling::Copy;
            (u8::from(copied), tree.hash(layer, offset))
        };
        let mut body = Draft::default();
        body.raw(&tree.hash(0, position));
        Self {
            flags: 4,
            index: position,
            stated: None,
            body,
            target: tree.root().to_vec(),
            nodes: (0..tree.height()).map(node).collect(),
        }
    }

    /// A proof in a random tree of up to `count` ids, in one of the ways to write it.
    pub fn random(random: &mut Random, count: u64) -> Self {
        let count = random.within(1..=count) as usize;
        let position = random.index(count);
        let mut ids: Vec<Hash> = (0..count).map(|_| random.hash()).collect();
        let spent = transaction::Plan::random(random);
        let whole = random.one_in(2);
        if whole {
            ids[position] = spent.id();
        }
        let tree = Tree::new(ids);
        let mut plan = Self::of(&tree, position as u64);
        if whole {
            plan.body = spent.draft();
            plan.stated = Some(plan.body.bytes.len() as u64);
        }
        plan.aim(random.pick(&[0, 2, 4]), random);
        if random.one_in(2) {
            plan.write_out();
        }
        plan
    }

    /// A proof of no block with id and root, of any number of layers: each sibling is a hash or, on
    /// the right, a copy.
    pub fn grown(random: &mut Random) -> Self {
        let height = if random.one_in(8) { 64 } else { random.within(1..=63) };
        let mut plan = Self::of(&Tree::random(random, 1), 0);
        let bits = random.bits();
        plan.index = random.pick(&[0, u64::MAX, bits]) >> (64 - height);
        let node = |layer| match plan.index >> layer & 1 == 0 && random.one_in(3) {
            true => (1, [0; 32]),
            false => (0, random.hash()),
        };
        plan.nodes = (0..height).map(node).collect();
        plan.flags = 0;
        plan.target = by_tsc(&plan.draft().bytes).expect("no twin").root().to_vec();
        plan.flags = 4;
        plan
    }

    /// Gives a proof to the root another target: a block hash (0), a header (2) or the root (4).
    pub fn aim(&mut self, kind: u8, random: &mut Random) {
        self.flags = kind | u8::from(self.stated.is_some());
        match kind {
            0 => self.target = random.hash().to_vec(),
            2 => self.target = [random.bytes(36), self.target.clone(), random.bytes(12)].concat(),
            _ => {}
        }
    }

    /// Writes copies as hashes.
    fn write_out(&mut self) {
        for (kind, _) in &mut self.nodes {
            *kind = 0;
        }
    }

    /// A change that may break a rule or the climb.
    pub fn spoil(&mut self, random: &mut Random) {
        let own = self.body.bytes.clone();
        let node = random.index(self.nodes.len().max(1));
        let shift = random.index(self.target.len());
        match random.within(0..=10) {
            0 => self.index = random.number(),
            1 => self.index ^= 1 << random.within(0..=8),
            2 => self.flags = random.bits() as u8 % 10,
            3 => self.stated = self.stated.map(|length| length ^ random.within(1..=3)),
            4 => self.target = random.bytes(self.target.len()),
            5 => self.target.rotate_left(shift),
            6 => self.nodes.push((random.bits() as u8 % 3, random.hash())),
            7 => drop(self.nodes.pop()),
            8 if self.stated.is_some() => {
                let mut other = transaction::Plan::random(random);
                other.shrink(random, 63 + shift % 3);
                self.body = other.draft();
                self.stated = Some(self.body.bytes.len() as u64);
            }
            _ => match self.nodes.get_mut(node) {
                Some(node) if own.len() == 32 && random.one_in(2) => {
                    node.1.copy_from_slice(&own);
                }
                Some(node) => node.0 = random.bits() as u8 % 3,
                None => {}
            },
        }
    }

    /// Its bytes.
    pub fn draft(&self) -> Draft {
        let mut draft = Draft::default();
        draft.byte(self.flags);
        draft.varint(self.index);
        if let Some(length) = self.stated {
            draft.varint(length);
        }
        draft.append(&self.body);
        draft.raw(&self.target);
        draft.varint(self.nodes.len() as u64);
        for (kind, hash) in &self.nodes {
            draft.byte(*kind);
            if *kind == 0 {
                draft.raw(hash);
            }
        }
        draft
    }
}
