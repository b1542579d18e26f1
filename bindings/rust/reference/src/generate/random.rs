//! Seeded random numbers.

use std::env;
use std::ops::RangeInclusive;

use crate::Hash;

/// The generator splitmix64.
#[derive(Debug, Clone)]
pub struct Random(u64);

impl Random {
    /// The stream of a test: its name and the number in `BARROWTIDE_SEED` (else 0) give the seed.
    pub fn of(test: &str) -> Self {
        let seed = number("BARROWTIDE_SEED").unwrap_or(0);
        let mut random = Self(seed);
        for byte in test.bytes() {
            random.0 = random.bits() ^ u64::from(byte);
        }
        random
    }

    /// The next 64 bits.
    pub fn bits(&mut self) -> u64 {
        self.0 = self.0.wrapping_add(0x9e37_79b9_7f4a_7c15);
        let mut z = self.0;
        z = (z ^ (z >> 30)).wrapping_mul(0xbf58_476d_1ce4_e5b9);
        z = (z ^ (z >> 27)).wrapping_mul(0x94d0_49bb_1331_11eb);
        z ^ (z >> 31)
    }

    /// A number of the range.
    pub fn within(&mut self, range: RangeInclusive<u64>) -> u64 {
        let span = range.end() - range.start();
        range.start() + if span == u64::MAX { self.bits() } else { self.bits() % (span + 1) }
    }

    /// An index below `length`, which is not 0.
    pub fn index(&mut self, length: usize) -> usize {
        self.within(0..=length as u64 - 1) as usize
    }

    /// True once in `n` times.
    pub fn one_in(&mut self, n: u64) -> bool {
        self.within(1..=n) == 1
    }

    /// One of the items.
    pub fn pick<T: Copy>(&mut self, items: &[T]) -> T {
        items[self.index(items.len())]
    }

    /// A number: small, at an edge of the VarInt's widths or 01's limits, or any.
    pub fn number(&mut self) -> u64 {
        let edge = self.pick(&[0, 32, 64, 253, 256, 1_024, 1 << 16, 1 << 32, 0]);
        match self.within(0..=3) {
            0 => self.within(0..=9),
            1 => edge,
            2 => self.pick(&[edge.wrapping_sub(1), edge.wrapping_add(1)]),
            _ => self.bits() >> self.within(0..=63),
        }
    }

    /// Some bytes.
    pub fn bytes(&mut self, length: usize) -> Vec<u8> {
        (0..length).map(|_| self.bits() as u8).collect()
    }

    /// A hash that nothing is known of.
    pub fn hash(&mut self) -> Hash {
        std::array::from_fn(|_| self.bits() as u8)
    }

    /// Puts the items in another order.
    pub fn shuffle<T>(&mut self, items: &mut [T]) {
        for end in (1..items.len()).rev() {
            items.swap(end, self.index(end + 1));
        }
    }
}

/// How many rounds a random test goes: the number in `BARROWTIDE_ROUNDS`, else 5,000.
pub fn rounds() -> u64 {
    number("BARROWTIDE_ROUNDS").unwrap_or(5_000)
}

fn number(variable: &str) -> Option<u64> {
    let text = env::var(variable).ok()?;
    Some(text.parse().unwrap_or_else(|_| panic!("{variable} is no number: {text}")))
}
