//! What the differential tests have in common.

use barrowtide::ffi::Blame;
use reference::refusal::Refusal;

/// What lent numbers hold before a call.
pub const FILL: u64 = 0xa5a5_a5a5_a5a5_a5a5;

/// A lent blame between two numbers that no call may touch.
#[derive(Debug, Clone, Copy, PartialEq, Eq)]
#[repr(C)]
pub struct Guarded {
    before: u64,
    /// What is lent.
    pub blame: Blame,
    after: u64,
}

/// What it holds before a call: five different numbers.
pub const GUARDED: Guarded = Guarded {
    before: FILL ^ 1,
    blame: Blame { carried: FILL, layer: FILL ^ 2, sibling: FILL ^ 3 },
    after: FILL ^ 4,
};

/// What number, blame and values must be after a call that the reference answers so, if the values
/// lent held `fill`: a refusal leaves them and writes the whole blame, acceptance leaves the blame.
/// Refusals other than 14 and 15 write 0 for layer and sibling.
pub fn expected<T>(answer: Result<T, Refusal>, fill: T) -> (u32, Guarded, T) {
    match answer {
        Ok(values) => (0, GUARDED, values),
        Err(Refusal { number, carried, layer, sibling }) => {
            assert!(matches!(number, 14 | 15) || (layer, sibling) == (0, 0), "{number}");
            (number, Guarded { blame: Blame { carried, layer, sibling }, ..GUARDED }, fill)
        }
    }
}

/// A wrapper's refusal in the reference's words.
pub fn plain(refusal: barrowtide::Refusal) -> Refusal {
    let barrowtide::Refusal { reason, carried, layer, sibling, .. } = refusal;
    Refusal { number: reason.number(), carried, layer, sibling }
}
