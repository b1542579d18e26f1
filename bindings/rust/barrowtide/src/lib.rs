//! Merkle proofs of Bitcoin SV payments, read and judged by a proved library.
//!
//! The work is done by `libbarrowtide.a`, whose functions are proved to do what papers 01 and 02 say;
//! this crate only hands the bytes over and the answers back. It has no dependencies but
//! `barrowtide-sys`, the calls of C, which are here as [`ffi`].
//!
//! - [`sha256d`], [`join`]: double SHA-256 of bytes and of two nodes
//! - [`read_varint`], [`read_bump`], [`read_cmp`]: is this path well formed, and what does it hold?
//! - [`read_transaction`], [`read_tsc`], [`read_beef`]: the same of transactions, proofs and bundles
//! - [`TransactionReader`]: a transaction that arrives in parts
//! - [`prove_bump`], [`prove_cmp`], [`prove_tsc`], [`check_clients`]: the root that a proof leads to
//! - [`prove_page`], [`prove_page_into`]: the same for many ids of one BUMP
//! - [`compare`]: two proofs under one root that disagree on the id hold two strings of one hash
//! - [`compare_depths`]: so do two of different numbers of layers, one of which proves a payment
//!   where the other has a node of the tree
//! - [`judge`], [`judge_into`]: does every transaction of a BEEF bundle rest on a trusted root, and
//!   spend what is there? And how much hashing does it take to say so?
//! - [`order`], [`order_into`], [`check_order`]: transactions in an order with parents
//!   first, as a BEEF needs them
//! - [`differences`], [`differences_into`], [`shorter`]: two BUMPs side by side
//! - [`bump_leaves`]: the leaves of a BUMP, one after the other as they are written
//! - [`LeafList`], and over lent room [`list_leaves_into`], [`search_leaves`], [`merge_into`]: a list
//!   of leaves beside a busy BUMP, by which it is searched, and two BUMPs of one block merged
//! - [`write_bump`], [`write_bump_into`]: the BUMP that proves some of a block's ids
//! - [`tsc_to_bump`], [`bump_to_tsc`], and into lent room [`tsc_to_bump_into`],
//!   [`bump_to_tsc_into`]: a TSC proof as a BUMP, and an id's climb in a BUMP as a TSC proof
//! - [`version`]: is the library linked the one that this crate is for?
//!
//! Every call answers a value or a [`Refusal`] with 01's number and the place that it blames; if a
//! sibling is missing or a twin, it says which.
//!
//! # What acceptance does not say
//!
//! - Scripts and signatures are not run.
//! - What mined transactions spend is not looked at: a payment may spend it again.
//! - Until a block holds a transaction, what it spends can still be spent elsewhere.
//! - A BUMP's block height is the sender's word.
//! - Which transaction is the payment, and whom it pays, is not asked.
//!
//! # Cost
//!
//! Siblings that are not written are worked out from the nodes below them. One climb makes fewer
//! joins than its path has layers and leaves: fewer than 64 + n / 2 by a path of n bytes, and fewer
//! than 57,406 by any. Each node that is asked for is searched for among the leaves of its level,
//! which takes longer than the joins where offsets do not rise. A page climbs once for each id,
//! [`check_clients`] once for each client leaf, and a bundle once for each transaction that names a
//! BUMP. But for clients of a level of up to four leaves, climbs by one path are made together, up
//! to 256 at a time, and each node's value is made once for all of them: whatever the bytes, that
//! takes at most one join for each climb and layer, one for each layer and one for each leaf of the
//! path. Where a join takes half a microsecond, the
//! worst inputs known take 0.2 s for one climb, a page or a bundle, and 0.4 s for all clients.
//!
//! # Byte order
//!
//! Ids, nodes and roots are [hashes](struct@Hash). Their text is in printed order, as block explorers
//! show them; stored bytes, the reverse, come in by [`Hash::from_stored`] and go out by
//! [`Hash::stored`]. The calls that take several end to end in lent bytes take stored order.
#![deny(missing_docs)]
#![deny(unsafe_code)]

mod beef;
mod bump;
mod cmp;
mod compare;
mod convert;
mod difference;
mod hash;
pub mod hex;
mod judge;
mod leaves;
mod lent;
mod order;
mod page;
mod parts;
mod prove;
mod refusal;
mod transaction;
mod tsc;
mod varint;
mod version;
mod walk;
mod write;

pub use barrowtide_sys as ffi;
pub use beef::{read_beef, Beef};
pub use bump::{read_bump, Bump};
pub use cmp::{read_cmp, Cmp};
pub use compare::{compare, compare_depths, Claim, Collision, DepthCollision};
pub use convert::{
    bump_to_tsc, bump_to_tsc_into, tsc_to_bump, tsc_to_bump_into, BUMP_TO_TSC_ROOM,
    TSC_TO_BUMP_ROOM,
};
pub use difference::{differences, differences_into, shorter, Difference, Side, MAX_DIFFERENCES};
pub use hash::{join, sha256d, Hash, ParseHashError, MAX_INPUT};
pub use judge::{judge, judge_into, Judged, Record, Verdict, MAX_TOTAL, MAX_TRANSACTIONS};
pub use leaves::{
    list_leaves_into, merge_into, search_leaves, LeafList, ListedLeaf, Merged, MergedBump,
    MAX_LEAVES, MAX_LISTED, MERGE_EXTRA,
};
pub use order::{check_order, order, order_into};
pub use page::{prove_page, prove_page_into, Answer, MAX_PAGE};
pub use parts::{Received, TransactionReader, MAX_PARTS};
pub use prove::{check_clients, prove_bump, prove_cmp, prove_tsc, Proof};
pub use refusal::{Blames, Reason, Refusal};
pub use transaction::{read_transaction, Transaction};
pub use tsc::{read_tsc, Tsc};
pub use varint::{read_varint, VarInt};
pub use version::{version, Version, VERSION};
pub use walk::{bump_leaves, BumpLeaf, BumpLeaves, LeafKind};
pub use write::{write_bump, write_bump_into, MAX_IDS, WRITE_ROOM};
