//! Lists of a block's ids, of which a BUMP is to be written.

use super::random::Random;
use super::tree::Tree;

/// What a BUMP is written from.
#[derive(Debug, Clone)]
pub struct Plan {
    /// The block height.
    pub block_height: u64,
    /// The ids, end to end.
    pub ids: Vec<u8>,
    /// The chosen positions.
    pub positions: Vec<u64>,
}

impl Plan {
    /// A list of so many ids that nothing is known of, and chosen positions.
    pub fn new(random: &mut Random, count: usize, positions: Vec<u64>) -> Self {
        let block_height = random.number() % (1 << 32);
        Self { block_height, ids: random.bytes(32 * count), positions }
    }

    /// A list of two ids or more, mostly of few, with one position, some or all, in any order and
    /// perhaps repeated.
    pub fn random(random: &mut Random) -> Self {
        let greatest = random.pick(&[3, 4, 8, 8, 16, 40]);
        let greatest = if random.one_in(200) { 1_024 } else { greatest };
        let count = random.within(2..=greatest) as usize;
        let mut positions: Vec<u64> = match random.within(0..=3) {
            0 => vec![random.index(count) as u64],
            1 => (0..count as u64).collect(),
            _ => (0..random.within(1..=9)).map(|_| random.index(count) as u64).collect(),
        };
        random.shuffle(&mut positions);
        Self::new(random, count, positions)
    }

    /// A change that breaks a rule, or may.
    pub fn spoil(&mut self, random: &mut Random) {
        let end = self.ids.len();
        let count = end as u64 / 32;
        match random.within(0..=8) {
            0 => self.block_height = random.number(),
            1 => self.block_height = (1 << 32) + random.within(0..=2),
            2 => self.ids.truncate(random.within(0..=end as u64) as usize),
            3 => self.ids.truncate(random.within(0..=2) as usize * 32),
            4 => self.ids.extend(random.bytes(1)),
            5 => self.ids.resize(32 * 1_024 + random.pick(&[1, 32, 2_400]), 0),
            6 => self.positions.clear(),
            7 => self.positions.push(count.wrapping_add(random.number())),
            _ if count >= 2 => {
                let (one, other) = (random.index(count as usize), random.index(count as usize));
                self.ids.copy_within(32 * one..32 * one + 32, 32 * other);
            }
            _ => {}
        }
    }

    /// The block's tree; for a list of whole ids.
    pub fn tree(&self) -> Tree {
        Tree::new(self.ids.chunks_exact(32).map(|id| std::array::from_fn(|i| id[i])).collect())
    }
}
