//! Transactions.

use reference::generate::transaction::Plan;

/// One with so many inputs that have this script, and outputs with scripts of 25 bytes.
pub fn with(inputs: usize, script: Vec<u8>, outputs: usize) -> Plan {
    Plan {
        version: 1,
        inputs: vec![([7; 32], 1, script, u32::MAX); inputs],
        outputs: vec![(1, vec![7; 25]); outputs],
        lock_time: 0,
    }
}
