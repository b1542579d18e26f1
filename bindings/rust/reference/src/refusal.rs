//! 01's "Numbers of refusal".

/// A refusal: its number, the place or transaction number that it carries, and of 14 and 15 the
/// sibling to blame (02, Item 5).
#[derive(Debug, Clone, Copy, PartialEq, Eq)]
pub struct Refusal {
    /// The number of 01's table.
    pub number: u32,
    /// A place in the input, a transaction's number, or 0.
    pub carried: u64,
    /// Of 14 and 15 the sibling's layer, else 0.
    pub layer: u64,
    /// Of 14 and 15 the sibling's position in that layer, else 0.
    pub sibling: u64,
}

impl Refusal {
    /// A refusal that blames no sibling.
    pub fn new(number: u32, carried: u64) -> Self {
        Self { number, carried, layer: 0, sibling: 0 }
    }

    /// 14 or 15 of a climb; it carries 0 outside of a BEEF.
    pub fn of_sibling(number: u32, layer: u64, sibling: u64) -> Self {
        Self { number, carried: 0, layer, sibling }
    }
}

/// The refusal `number` that blames the place `at`.
pub fn refuse<T>(number: u32, at: usize) -> Result<T, Refusal> {
    Err(Refusal::new(number, at as u64))
}

/// Input over its size.
pub const TOO_LONG: u32 = 1;
/// Bytes end inside a field.
pub const SHORT: u32 = 2;
/// A VarInt that is not the shortest.
pub const LONG_VARINT: u32 = 3;
/// Tree height outside.
pub const BAD_HEIGHT: u32 = 4;
/// Count or block height over its limit.
pub const OVER_LIMIT: u32 = 5;
/// Offset or TSC index outside the layer.
pub const BAD_OFFSET: u32 = 6;
/// Flags, node type or BEEF byte not allowed.
pub const BAD_FLAG: u32 = 7;
/// Offset again in its level.
pub const REPEATED: u32 = 8;
/// Bytes left after the end.
pub const EXTRA: u32 = 9;
/// Four bytes present, not BEEF's.
pub const BAD_VERSION: u32 = 10;
/// No inputs or no outputs; a transaction of 64 bytes; a TSC transaction not exactly its stated length.
pub const BAD_TX: u32 = 11;
/// BEEF with no transaction.
pub const EMPTY: u32 = 12;
/// Id not at level 0, or no leaf is a client's.
pub const NOT_LISTED: u32 = 13;
/// Sibling not written and not to be worked out.
pub const MISSING: u32 = 14;
/// Sibling equal to the working hash at an odd position.
pub const TWIN: u32 = 15;
/// Client roots differ, or a TSC target is another root.
pub const ROOTS_DIFFER: u32 = 16;
/// Root not in the list.
pub const UNTRUSTED: u32 = 17;
/// BUMP number not below the count.
pub const BAD_INDEX: u32 = 18;
/// Id equal to an earlier one.
pub const SAME_TX: u32 = 19;
/// An input without earlier parent.
pub const NO_PARENT: u32 = 20;
/// List of roots not a multiple of 32 bytes.
pub const BAD_ROOTS: u32 = 21;
/// Table with fewer records than the count read.
pub const NO_ROOM: u32 = 22;
/// Two proofs differ in root, position or layers.
pub const UNLIKE: u32 = 23;
/// They agree and prove one id.
pub const SAME_ID: u32 = 24;
/// An amount, or the running total of its transaction, over its limit (02, Item 9).
pub const BAD_AMOUNT: u32 = 25;
/// Output number not there.
pub const NO_OUTPUT: u32 = 26;
/// Output spent twice.
pub const SPENT_TWICE: u32 = 27;
/// Too little comes in.
pub const TOO_LITTLE: u32 = 28;
/// No order with parents first (02, Item 12).
pub const NO_ORDER: u32 = 29;
/// A proposed order that is none.
pub const BAD_ORDER: u32 = 30;
