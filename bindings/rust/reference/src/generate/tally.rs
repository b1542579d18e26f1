//! Whether a test met every answer that it is there for.

use std::collections::BTreeMap;

use crate::refusal::Refusal;

/// How often each refusal number was met; 0 is acceptance.
#[derive(Debug, Clone, Default)]
pub struct Tally(BTreeMap<u32, u64>);

impl Tally {
    /// Counts an answer.
    pub fn note<T>(&mut self, answer: Result<T, Refusal>) {
        let number = answer.map_or_else(|refusal| refusal.number, |_| 0);
        *self.0.entry(number).or_default() += 1;
    }

    /// Fails unless each of these numbers was met.
    pub fn assert_met(&self, numbers: &[u32]) {
        for number in numbers {
            assert!(self.0.contains_key(number), "{number} was not met; met were {:?}", self.0);
        }
    }
}
