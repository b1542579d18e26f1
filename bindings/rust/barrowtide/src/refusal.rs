//! Refusals: 01's numbers by their names.

use std::error::Error;
use std::fmt;

use crate::ffi::Blame;

/// Why an input was refused; the numbers are 01's. Later versions have more of them.
#[derive(Debug, Clone, Copy, PartialEq, Eq, Hash)]
#[repr(u32)]
#[non_exhaustive]
pub enum Reason {
    /// The input is over its size.
    TooLong = 1,
    /// The bytes end inside a field.
    Short = 2,
    /// A VarInt is not in its shortest form.
    LongVarint = 3,
    /// A tree height is outside its range, or a TSC proof without nodes is to become a BUMP.
    BadHeight = 4,
    /// A count or a block height is over its limit; a list is outside its sizes or not whole; a level
    /// of a merged BUMP is over its limit.
    OverLimit = 5,
    /// An offset, a TSC index or a chosen position is outside its layer.
    BadOffset = 6,
    /// Flags, a node type or a BEEF byte are not allowed.
    BadFlag = 7,
    /// An offset stands in its level already.
    Repeated = 8,
    /// Bytes are left after the end.
    Extra = 9,
    /// The first four bytes are not BEEF's.
    BadVersion = 10,
    /// A transaction has no inputs or no outputs, has 64 bytes, as a pair of nodes has, or is not
    /// exactly as long as a TSC proof says.
    BadTx = 11,
    /// A BEEF has no transaction.
    Empty = 12,
    /// The id is not at level 0, no leaf is a client's, or no position is chosen.
    NotListed = 13,
    /// A sibling is not written and can't be worked out.
    Missing = 14,
    /// A sibling equals the working hash at an odd position.
    Twin = 15,
    /// Roots of clients differ, a TSC target is another root, or two BUMPs to be merged contradict
    /// each other.
    RootsDiffer = 16,
    /// The root is not in the list of trusted ones.
    Untrusted = 17,
    /// A BUMP number is not below the count of BUMPs.
    BadIndex = 18,
    /// An id equals an earlier one.
    SameTx = 19,
    /// An input has no earlier parent.
    NoParent = 20,
    /// The list of roots is not a multiple of 32 bytes.
    BadRoots = 21,
    /// The lent table has fewer records than the bundle has transactions, or lent room is short.
    NoRoom = 22,
    /// Two proofs differ in root, position or layers; of two with different numbers of layers, see
    /// [`compare_depths`](crate::compare_depths). Two BUMPs to be merged differ in block height, tree
    /// height or root.
    Unlike = 23,
    /// Two proofs agree and prove one id.
    SameId = 24,
    /// An amount in a BEEF is above [`MAX_TOTAL`](crate::MAX_TOTAL), or takes the total of its
    /// transaction's outputs above it.
    BadAmount = 25,
    /// An input spends an output that its parent doesn't have.
    NoOutput = 26,
    /// An input spends what an earlier one spends, of the same transaction or of another that is not
    /// anchored.
    SpentTwice = 27,
    /// The inputs of a transaction don't come to more than its outputs plus the fee.
    TooLittle = 28,
    /// A set of transactions has no order with parents first.
    NoOrder = 29,
    /// A proposed order doesn't hold every transaction of a set once, after its parents there.
    BadOrder = 30,
}

/// Each reason with 01's name for it and its meaning, in the order of the numbers.
const REASONS: [(Reason, &str, &str); 30] = [
    (Reason::TooLong, "TOO_LONG", "input over its size"),
    (Reason::Short, "SHORT", "bytes end inside a field"),
    (Reason::LongVarint, "LONG_VARINT", "VarInt not in its shortest form"),
    (Reason::BadHeight, "BAD_HEIGHT", "tree height outside its range"),
    (Reason::OverLimit, "OVER_LIMIT", "count, list or block height outside its limits"),
    (Reason::BadOffset, "BAD_OFFSET", "offset, index or position outside its layer"),
    (Reason::BadFlag, "BAD_FLAG", "flags, node type or BEEF byte not allowed"),
    (Reason::Repeated, "REPEATED", "offset again in its level"),
    (Reason::Extra, "EXTRA", "bytes left after the end"),
    (Reason::BadVersion, "BAD_VERSION", "first four bytes not BEEF's"),
    (Reason::BadTx, "BAD_TX", "no inputs, no outputs, 64 bytes, or not the stated length"),
    (Reason::Empty, "EMPTY", "BEEF with no transaction"),
    (Reason::NotListed, "NOT_LISTED", "id not at level 0, or none chosen"),
    (Reason::Missing, "MISSING", "sibling not written and not to be worked out"),
    (Reason::Twin, "TWIN", "sibling equal to the working hash at an odd position"),
    (Reason::RootsDiffer, "ROOTS_DIFFER", "roots differ"),
    (Reason::Untrusted, "UNTRUSTED", "root not in the list"),
    (Reason::BadIndex, "BAD_INDEX", "BUMP number not below the count"),
    (Reason::SameTx, "SAME_TX", "id equal to an earlier one"),
    (Reason::NoParent, "NO_PARENT", "an input without earlier parent"),
    (Reason::BadRoots, "BAD_ROOTS", "list of roots not a multiple of 32 bytes"),
    (Reason::NoRoom, "NO_ROOM", "lent table or room too small"),
    (Reason::Unlike, "UNLIKE", "two proofs differ in root, position or layers"),
    (Reason::SameId, "SAME_ID", "two proofs agree and prove one id"),
    (Reason::BadAmount, "BAD_AMOUNT", "amount or running total above its limit"),
    (Reason::NoOutput, "NO_OUTPUT", "an input spends an output that is not there"),
    (Reason::SpentTwice, "SPENT_TWICE", "an output spent twice"),
    (Reason::TooLittle, "TOO_LITTLE", "inputs not more than outputs plus the fee"),
    (Reason::NoOrder, "NO_ORDER", "no order has parents first"),
    (Reason::BadOrder, "BAD_ORDER", "not every transaction once, after its parents"),
];

impl Reason {
    /// The reason of a number, if it is one of 01's.
    ///
    /// ```
    /// use barrowtide::Reason;
    /// assert_eq!(Reason::from_number(14), Some(Reason::Missing));
    /// assert_eq!(Reason::from_number(0), None);
    /// assert_eq!(Reason::from_number(99), None);
    /// ```
    pub fn from_number(number: u32) -> Option<Self> {
        let index = usize::try_from(number).ok()?.checked_sub(1)?;
        REASONS.get(index).map(|(reason, _, _)| *reason)
    }

    /// 01's number.
    pub fn number(self) -> u32 {
        self as u32
    }

    /// 01's name.
    ///
    /// ```
    /// assert_eq!(barrowtide::Reason::NotListed.name(), "NOT_LISTED");
    /// ```
    pub fn name(self) -> &'static str {
        REASONS[self as usize - 1].1
    }

    /// What it means, in a few words.
    pub fn meaning(self) -> &'static str {
        REASONS[self as usize - 1].2
    }

    /// Whether the refusal carries the place of the field or byte that is to blame. If it blames a
    /// list, a chosen position, a page, the count of a set, or the room for answers or bytes, it
    /// carries 0.
    ///
    /// The others carry 0, or in a BEEF the transaction's number if they come in judging
    /// ([`Reason::blames_transaction`]).
    pub fn blames_place(self) -> bool {
        matches!(self as u32, 2..=9 | 11 | 12 | 18 | 22 | 25)
    }

    /// Whether the refusal, given for a BEEF, carries the number of a transaction; elsewhere such
    /// a refusal carries 0.
    pub fn blames_transaction(self) -> bool {
        matches!(self as u32, 13..=15 | 17 | 19 | 20 | 26..=28)
    }
}

impl fmt::Display for Reason {
    fn fmt(&self, f: &mut fmt::Formatter<'_>) -> fmt::Result {
        write!(f, "{} ({})", self.meaning(), self.name())
    }
}

/// What the number that a refusal carries stands for.
#[derive(Debug, Clone, Copy, PartialEq, Eq, Hash)]
pub enum Blames {
    /// Nothing: the number is 0.
    Nothing,
    /// The place of a field or byte, counted from 0 at the input's first byte.
    Place,
    /// A transaction of the bundle, counted from 0.
    Transaction,
}

/// A refusal: why, and what it blames.
#[derive(Debug, Clone, Copy, PartialEq, Eq, Hash)]
#[non_exhaustive]
pub struct Refusal {
    /// Why.
    pub reason: Reason,
    /// The place that is blamed, counted from 0 at the input's first byte; or the number of the
    /// transaction that is blamed, counted from 0; or 0.
    pub carried: u64,
    /// Which of these it is, as the reason and the call tell.
    pub blames: Blames,
    /// Where a set of transactions is put in order, the number of the one in which the place that
    /// is blamed lies, counted from 0; of [`Reason::Extra`] the count. `None` from all other calls,
    /// and where no place is blamed.
    pub in_transaction: Option<u64>,
    /// Where a bundle is judged, how many SHA-256 compressions that took, as
    /// [`Verdict::work`](crate::Verdict::work) counts them; `None` from all other calls.
    pub work: Option<u64>,
    /// The layer of the sibling that is missing or a twin, counted from 0 at the ids; 0 unless the
    /// reason is [`Reason::Missing`] or [`Reason::Twin`].
    pub layer: u64,
    /// That sibling's position in its layer; 0 unless the reason is one of these two. Of 14 it is
    /// the sibling that the climb needs, even if what it can't be worked out without is further
    /// down.
    pub sibling: u64,
}

impl Refusal {
    /// What is wrong, in a few words, and 01's name for it; of a sibling that is missing or a twin,
    /// which one.
    pub fn fault(&self) -> String {
        let Self { reason, layer, sibling, .. } = self;
        let name = reason.name();
        match reason {
            Reason::Missing => format!("sibling {sibling} of layer {layer} is missing ({name})"),
            Reason::Twin => {
                format!("sibling {sibling} of layer {layer} equals the working hash ({name})")
            }
            _ => reason.to_string(),
        }
    }

    /// The same refusal, where a bundle is judged with so much work: some carry the number of a
    /// transaction, and 22 the place of the count.
    pub(crate) fn in_judging(self, work: u64) -> Self {
        let blames = match self.reason {
            Reason::NoRoom => Blames::Place,
            reason if reason.blames_transaction() => Blames::Transaction,
            _ => self.blames,
        };
        Self { blames, work: Some(work), ..self }
    }

    /// The same refusal, where a set of transactions is put in order: of a fault in reading with
    /// the number of a transaction beside the place. 5 is about the count that was lent.
    pub(crate) fn in_set(self, transaction: u64) -> Self {
        match (self.reason, self.blames) {
            (Reason::OverLimit, _) => self.of_caller(),
            (_, Blames::Place) => Self { in_transaction: Some(transaction), ..self },
            _ => self,
        }
    }

    /// The same refusal, where what the caller asked for is to blame, and no byte that was read.
    pub(crate) fn of_caller(self) -> Self {
        Self { blames: Blames::Nothing, ..self }
    }
}

/// The answer of a call: the value if the number is 0, else the refusal, as reading and proving
/// mean it.
///
/// # Panics
///
/// If the number is none of 01's: then the library linked is not the one that this crate is for.
pub(crate) fn answer<T>(number: u32, blame: Blame, value: T) -> Result<T, Refusal> {
    if number == 0 {
        return Ok(value);
    }
    match Reason::from_number(number) {
        Some(reason) => {
            let Blame { carried, layer, sibling } = blame;
            let place = reason.blames_place() && reason != Reason::NoRoom;
            let blames = if place { Blames::Place } else { Blames::Nothing };
            let in_transaction = None;
            Err(Refusal { reason, carried, blames, in_transaction, work: None, layer, sibling })
        }
        None => panic!("libbarrowtide.a gave the unknown refusal {number}"),
    }
}

/// The number, the place or transaction that is blamed, and what is wrong.
///
/// ```
/// use barrowtide::{judge, prove_bump, read_bump, sha256d, Hash, MAX_INPUT};
/// let refusal = sha256d(&vec![0; MAX_INPUT + 1]).unwrap_err();
/// assert_eq!(refusal.to_string(), "refused 1: input over its size (TOO_LONG)");
/// let refusal = read_bump(&[0x00]).unwrap_err();
/// assert_eq!(refusal.to_string(), "refused 2 at 1: bytes end inside a field (SHORT)");
///
/// // An id at position 21 and nothing else.
/// let id = Hash::from_stored([0xaa; 32]);
/// let bump = [&[0x00, 0x05, 0x01, 0x15, 0x02][..], id.stored(), &[0x00; 4]].concat();
/// let refusal = prove_bump(&bump, &id).unwrap_err();
/// assert_eq!((refusal.layer, refusal.sibling), (0, 20));
/// let text = "refused 14: sibling 20 of layer 0 is missing (MISSING)";
/// assert_eq!(refusal.to_string(), text);
///
/// // A bundle of one transaction, which names no BUMP and whose parent is not there.
/// let input = [&[0x00; 36][..], &[0x00], &[0xff; 4]].concat();
/// let transaction = [&[1, 0, 0, 0, 1][..], &input, &[1], &[0; 8], &[0], &[0; 4]].concat();
/// let bundle = [&[0x01, 0x00, 0xbe, 0xef, 0, 1][..], &transaction, &[0]].concat();
/// let refusal = judge(&bundle, &[], 0).unwrap_err();
/// let text = "refused 20 at transaction 0: an input without earlier parent (NO_PARENT)";
/// assert_eq!(refusal.to_string(), text);
/// ```
impl fmt::Display for Refusal {
    fn fmt(&self, f: &mut fmt::Formatter<'_>) -> fmt::Result {
        write!(f, "refused {}", self.reason.number())?;
        match self.blames {
            Blames::Nothing => {}
            Blames::Place => write!(f, " at {}", self.carried)?,
            Blames::Transaction => write!(f, " at transaction {}", self.carried)?,
        }
        match self.in_transaction {
            Some(number) if self.reason != Reason::Extra => {
                write!(f, " in transaction {number}")?;
            }
            _ => {}
        }
        write!(f, ": {}", self.fault())
    }
}

impl Error for Refusal {}

#[cfg(test)]
mod tests {
    use super::*;

    #[test]
    fn numbers_and_names() {
        for (index, (reason, name, _)) in REASONS.into_iter().enumerate() {
            assert_eq!(reason.number() as usize, index + 1);
            assert_eq!(Reason::from_number(reason.number()), Some(reason));
            let plain: String = name.split('_').map(str::to_lowercase).collect();
            assert_eq!(format!("{reason:?}").to_lowercase(), plain);
        }
    }

    #[test]
    fn texts() {
        let refused = |reason: Reason, carried, layer, sibling| {
            let blame = Blame { carried, layer, sibling };
            answer(reason.number(), blame, ()).unwrap_err()
        };
        let missing = refused(Reason::Missing, 0, 0, 20);
        let text = "refused 14: sibling 20 of layer 0 is missing (MISSING)";
        assert_eq!(missing.to_string(), text);
        let text = "refused 14 at transaction 0: sibling 20 of layer 0 is missing (MISSING)";
        assert_eq!(missing.in_judging(9).to_string(), text);
        let twin = refused(Reason::Twin, 1, 1, 4).in_judging(9);
        let text =
            "refused 15 at transaction 1: sibling 4 of layer 1 equals the working hash (TWIN)";
        assert_eq!(twin.to_string(), text);
        let short = refused(Reason::Short, 5, 0, 0);
        assert_eq!(short.to_string(), "refused 2 at 5: bytes end inside a field (SHORT)");
        assert_eq!(short.in_judging(0), Refusal { work: Some(0), ..short });
        let over = refused(Reason::OverLimit, 0, 0, 0).of_caller().to_string();
        assert!(over.starts_with("refused 5: "), "{over}");
        let room = refused(Reason::NoRoom, 0, 0, 0);
        let text = "lent table or room too small (NO_ROOM)";
        assert_eq!(room.to_string(), format!("refused 22: {text}"));
        assert_eq!(room.in_judging(0).to_string(), format!("refused 22 at 0: {text}"));
        let text = "refused 2 at 5 in transaction 3: bytes end inside a field (SHORT)";
        assert_eq!(short.in_set(3).to_string(), text);
        let extra = refused(Reason::Extra, 60, 0, 0).in_set(1);
        let text = "refused 9 at 60: bytes left after the end (EXTRA)";
        assert_eq!((extra.to_string().as_str(), extra.in_transaction), (text, Some(1)));
        let none = refused(Reason::NoOrder, 0, 0, 0).in_set(0);
        let text = "refused 29: no order has parents first (NO_ORDER)";
        assert_eq!((none.to_string().as_str(), none.in_transaction), (text, None));
    }
}
