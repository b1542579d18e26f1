//! The C interface of `include/barrowtide.h`, call by call, with slices and references in place of
//! pointers.
//!
//! Each call (but [`version`], [`join`], [`parts_start`] and [`search_leaves`]) returns 01's refusal
//! number, or 0 if it accepts; [`parts_part`] may also return [`MORE`], with nothing written but the state. A refusal writes all
//! three numbers of `blame`, of a set's order the number of a transaction, and of judging the work,
//! and leaves all other lent memory as it was, except that a lent table or row is zeroed, that the
//! state of a transaction in parts changes, and that [`shorter`] hands back no bytes. Acceptance
//! writes the values and leaves `blame` as it was, and the room past what is written.
//!
//! The crate `barrowtide` is made of these and is nicer to use; these show what becomes of lent memory.
//! [`judge_beef`] and [`prove_page`], which lend a table and a row of structures, panic if the archive
//! is not of this crate's version.
#![deny(missing_docs)]

mod blame;
mod bundle;
mod compare;
mod convert;
mod difference;
mod hash;
mod judge;
mod leaves;
mod order;
mod page;
mod parts;
mod path;
mod prove;
mod version;
mod write;

/// An id, a node or a root, in stored order.
pub type Stored = [u8; 32];

/// Where the archive is that this was built with, for those who hand it to a C compiler.
pub const ARCHIVE: &str = env!("BARROWTIDE_ARCHIVE");

pub use blame::Blame;
pub use bundle::{read_beef, read_transaction, read_tsc};
pub use compare::{compare, compare_depths, Lent};
pub use convert::{bump_to_tsc, tsc_to_bump};
pub use difference::{differences, shorter};
pub use hash::{join, sha256d};
pub use judge::{judge_beef, Record};
pub use leaves::{list_leaves, merge, search_leaves, Room};
pub use order::{check_order, order};
pub use page::{prove_page, Answer};
pub use parts::{parts_end, parts_part, parts_start, Parts, MORE};
pub use path::{read_bump, read_cmp, read_varint};
pub use prove::{check_clients, prove_bump, prove_cmp, prove_tsc};
pub use version::{version, VERSION};
pub use write::write_bump;
