//! The inputs that are made for the benchmark alone; those at random are the reference's.

pub mod bundle;
pub mod path;
pub mod set;
pub mod transaction;
