//! Inputs to compare the library and the reference on: trees, lists of ids, proofs, bundles and sets
//! of transactions that are sound, and damage to them.

pub mod bundle;
pub mod damage;
pub mod draft;
pub mod list;
pub mod merged;
pub mod path;
pub mod random;
pub mod set;
pub mod tally;
pub mod transaction;
pub mod tree;
pub mod tsc;
