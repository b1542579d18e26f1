//! An independent reading of the papers in plain Rust, to compare the library with.
//!
//! It is written from papers 01 and 02 and the sources they name, sentence by sentence, and shares no
//! code with the library or its binding. It aims at being easy to check against the papers, not at
//! speed.
//! [`generate`] makes the inputs that both are asked about, beside [`published`] ones.
#![forbid(unsafe_code)]
#![deny(missing_docs)]

pub mod beef;
pub mod bump;
pub mod bumplist;
pub mod climb;
pub mod cmp;
pub mod compare;
pub mod convert;
pub mod depth;
pub mod difference;
pub mod fields;
pub mod generate;
pub mod hex;
pub mod judge;
pub mod leaves;
pub mod merge;
pub mod order;
pub mod page;
pub mod parts;
pub mod path;
pub mod prove;
pub mod published;
pub mod refusal;
pub mod sha256;
pub mod transaction;
pub mod tsc;
pub mod values;
pub mod work;
pub mod write;

/// 32 bytes in stored order: an id, a node or a root.
pub type Hash = [u8; 32];
