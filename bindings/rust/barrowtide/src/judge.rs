//! Judging a BEEF bundle.

use crate::ffi::{self, Blame};
use crate::lent;
use crate::refusal::{answer, Refusal};
use crate::Hash;

/// The greatest number of transactions in a bundle.
pub const MAX_TRANSACTIONS: usize = 256;

/// The most that the outputs of a transaction in a bundle may come to, in satoshi.
pub const MAX_TOTAL: u64 = 2_100_000_000_000_000;

/// What an accepted bundle says of one of its transactions.
///
/// The layout is C's and has no padding: any 80 bytes are a record, and a zeroed one is zero byte for
/// byte. Records of earlier versions took 64 bytes: a table that one of them saved is not read as one
/// of these, its bundle is judged anew.
#[derive(Debug, Clone, Copy, Default, PartialEq, Eq)]
#[repr(C)]
pub struct Record {
    /// The place of its first byte in the bundle.
    pub start: u64,
    /// How many bytes it takes.
    pub length: u64,
    /// Its id.
    pub id: Hash,
    /// The number of the BUMP that anchors it, counted from 0; 0 if it is not anchored.
    pub bump: u32,
    /// 1 if a BUMP of the bundle anchors it in a trusted root, else 0.
    pub anchored: u32,
    /// Its position in the block; 0 if it is not anchored.
    pub position: u64,
    /// How many outputs it has.
    pub outputs: u64,
    /// What they come to, in satoshi.
    pub total: u64,
}

impl Record {
    /// Whether a BUMP of the bundle anchors it in a trusted root.
    pub fn is_anchored(&self) -> bool {
        self.anchored != 0
    }
}

/// What [`judge_into`] says of an accepted bundle beside the table.
#[derive(Debug, Clone, Copy, PartialEq, Eq)]
pub struct Judged {
    /// How many transactions it has.
    pub transactions: u64,
    /// How many SHA-256 compressions judging it took, as [`Verdict::work`] counts them.
    pub work: u64,
}

/// Judges a bundle against a list of trusted roots and a fee, and fills a lent table.
///
/// The roots stand end to end in stored order, 32 bytes each. The fee is as for [`judge`]. The table
/// has room for the bundle's transactions or more ([`MAX_TRANSACTIONS`] always do). Of n transactions
/// the first n records are filled, the others are zero. A refusal zeroes the whole table.
///
/// ```
/// use barrowtide::{judge_into, Reason, Record};
/// let mut table = [Record { length: 7, ..Record::default() }];
/// let bundle = [0x01, 0x00, 0xbe, 0xef, 0x00, 0x00];
/// let refusal = judge_into(&bundle, &[], 0, &mut table).unwrap_err();
/// assert_eq!((refusal.reason, refusal.carried, refusal.work), (Reason::Empty, 5, Some(0)));
/// assert_eq!(table, [Record::default()]);
/// ```
pub fn judge_into(
    data: &[u8],
    roots: &[u8],
    fee: u64,
    table: &mut [Record],
) -> Result<Judged, Refusal> {
    let (mut blame, mut transactions, mut work) = (Blame::default(), 0, 0);
    let table = lent::records(table);
    let number = ffi::judge_beef(data, roots, fee, table, &mut blame, &mut transactions, &mut work);
    let judged = Judged { transactions, work };
    answer(number, blame, judged).map_err(|refusal| refusal.in_judging(work))
}

/// A bundle that was accepted.
#[derive(Debug, Clone, PartialEq, Eq)]
pub struct Verdict {
    /// A record for each transaction, in the bundle's order. A sender puts the payment last, and
    /// nothing checks that it does.
    pub records: Vec<Record>,
    /// How many SHA-256 compressions, of 64 bytes each, judging it took: what a terminal's battery
    /// is planned by.
    ///
    /// They are counted by a rule, so that every machine comes to the same number: (n + 72) / 64 + 1
    /// for the id of a transaction of n bytes, each once, and 3 for each join of two nodes. Each
    /// climb of a transaction that names a BUMP makes one join a layer, and those of the siblings
    /// that have to be worked out; a sibling that several climbs ask for counts in each, though the
    /// library makes it once. A refusal has its own count ([`Refusal::work`]): 0 if the bundle was
    /// not read to its end, else that of all ids and of the climbs up to the fault; a sibling that
    /// can't be had counts nothing.
    pub work: u64,
}

/// Judges a bundle against trusted roots and a fee, with a table of its own.
///
/// A transaction is anchored in its BUMP under a trusted root, or each of its inputs spends an output
/// of an earlier transaction of the bundle. Of the latter no output is spent twice, and the inputs of
/// each come to more than its outputs plus `fee`, in satoshi. That is strictly more: 0 asks that
/// something is left, and who wants 50 at least gives 49. The fee is asked of each of them by
/// itself, not of the bundle. What anchored transactions spend is not looked at.
///
/// # What acceptance does not say
///
/// - Scripts and signatures are not run.
/// - What mined transactions spend is not looked at: a payment may spend it again.
/// - Until a block holds a transaction, what it spends can still be spent elsewhere.
/// - A BUMP's block height is the sender's word.
/// - Which transaction is the payment, and whom it pays, is not asked.
///
/// ```
/// use barrowtide::{hex, judge, Hash, Reason};
///
/// // The example bundle of BRC-62, and the Merkle root of the block that its parent is in.
/// let bundle = hex::decode(&std::fs::read_to_string("../tests/data/004-bundle.hex")?).unwrap();
/// let root = "bb6f640cc4ee56bf38eb5a1969ac0c16caa2d3d202b22bf3735d10eec0ca6e00";
/// let root: Hash = root.parse().unwrap();
///
/// let verdict = judge(&bundle, &[root], 0).expect("a sound bundle");
/// assert_eq!(verdict.records.len(), 2);
/// assert_eq!((verdict.records[0].is_anchored(), verdict.records[0].position), (true, 21));
/// assert!(!verdict.records[1].is_anchored());
/// assert_eq!((verdict.records[0].total, verdict.records[1].total), (26_174, 26_172));
///
/// // The payment leaves 2 satoshi, which is more than 1.
/// assert!(judge(&bundle, &[root], 1).is_ok());
/// let refusal = judge(&bundle, &[root], 2).unwrap_err();
/// assert_eq!((refusal.reason, refusal.carried), (Reason::TooLittle, 1));
///
/// // Two ids of 5 compressions and a climb of 7 layers: 10 + 3 * 7, refused or not.
/// assert_eq!((verdict.work, refusal.work), (31, Some(31)));
/// # Ok::<(), std::io::Error>(())
/// ```
pub fn judge(data: &[u8], roots: &[Hash], fee: u64) -> Result<Verdict, Refusal> {
    let mut records = vec![Record::default(); MAX_TRANSACTIONS];
    let judged = judge_into(data, &Hash::end_to_end(roots), fee, &mut records)?;
    records.truncate(judged.transactions as usize);
    Ok(Verdict { records, work: judged.work })
}
