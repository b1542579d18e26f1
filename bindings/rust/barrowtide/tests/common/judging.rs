//! Judging: the library against the reference, with all that is lent.

use barrowtide::{ffi, Judged, Record};
use reference::hex::show;
use reference::judge;
use reference::refusal::Refusal;

use crate::common::{expected, plain, FILL, GUARDED};

/// What every byte of a lent table holds before the call.
const PRESET: u8 = 0xa5;

/// A record of such bytes.
pub const FILLED: Record = Record {
    start: FILL,
    length: FILL,
    id: barrowtide::Hash::from_stored([PRESET; 32]),
    bump: 0xa5a5_a5a5,
    anchored: 0xa5a5_a5a5,
    position: FILL,
    outputs: FILL,
    total: FILL,
};

/// The bytes of a table, as a C caller sees them.
pub fn bytes(table: &[Record]) -> &[u8] {
    // SAFETY: a record has no padding, so every byte of the table is initialised.
    unsafe { std::slice::from_raw_parts(table.as_ptr().cast(), size_of_val(table)) }
}

/// Compares the verdict, the count, every record of a table of `room` records and the work, with what
/// is left in lent memory; the records if accepted, and the work.
pub fn judged(
    data: &[u8],
    roots: &[u8],
    fee: u64,
    room: usize,
) -> (Result<Vec<Record>, Refusal>, u64) {
    let judge::Judged { answer: told, table: left, work } = judge::judge(data, roots, fee, room);
    let left: Vec<Record> = left.into_iter().map(record).collect();
    let describe = || format!("{}; roots {}; fee {fee}; room {room}", show(data), show(roots));

    // The work lent is the middle one of three numbers.
    let (mut guarded, mut transactions, mut works) = (GUARDED, FILL, [FILL; 3]);
    let (blame, counted) = (&mut guarded.blame, &mut works[1]);
    let mut table = vec![lent(FILLED); room];
    let number = ffi::judge_beef(data, roots, fee, &mut table, blame, &mut transactions, counted);
    assert_eq!((number, guarded, transactions), expected(told, FILL), "{}", describe());
    assert_eq!(works, [FILL, work, FILL], "{}", describe());
    assert!(table.into_iter().eq(left.iter().copied().map(lent)), "{}", describe());

    let mut table = vec![FILLED; room];
    let safe = barrowtide::judge_into(data, roots, fee, &mut table);
    let counted = safe.map_or_else(|refusal| refusal.work, |judged| Some(judged.work));
    assert_eq!(counted, Some(work), "{}", describe());
    let safe = safe.map(|Judged { transactions, .. }| transactions).map_err(plain);
    assert_eq!(safe, told, "{}", describe());
    assert_eq!(table, left, "{}", describe());
    assert_eq!(bytes(&table), bytes(&left), "{}", describe());
    (told.map(|count| left[..count as usize].to_vec()), work)
}

/// A record as the C call writes it.
fn lent(record: Record) -> ffi::Record {
    let Record { start, length, id, bump, anchored, position, outputs, total } = record;
    ffi::Record { start, length, id: *id.stored(), bump, anchored, position, outputs, total }
}

fn record(told: judge::Record) -> Record {
    let judge::Record { start, length, id, anchored, bump, position, outputs, total } = told;
    let bump = bump.try_into().expect("at most 64 BUMPs");
    let id = barrowtide::Hash::from_stored(id);
    Record { start, length, id, bump, anchored: anchored.into(), position, outputs, total }
}
