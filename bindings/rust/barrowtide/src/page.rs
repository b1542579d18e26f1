//! Proving a page of ids by one BUMP.

use crate::ffi::{self, Blame};
use crate::lent;
use crate::refusal::{answer, Refusal};
use crate::{Hash, Proof};

/// The greatest number of ids in a page.
pub const MAX_PAGE: usize = 256;

/// What a page's row says of one of its ids.
#[derive(Debug, Clone, Copy, Default, PartialEq, Eq)]
#[repr(C)]
pub struct Answer {
    /// 0 if the id is proved, else the number of its refusal.
    pub refusal: u64,
    /// What the refusal carries; 0 if the id is proved.
    pub carried: u64,
    /// Of 14 and 15 the layer of the sibling that is missing or a twin; else 0.
    pub layer: u64,
    /// Of 14 and 15 that sibling's position in its layer; else 0.
    pub sibling: u64,
    /// The id's position in the block; 0 if refused.
    pub position: u64,
    /// The number of layers between it and the root; 0 if refused.
    pub layers: u64,
    /// The Merkle root; zero if refused.
    pub root: Hash,
}

impl Answer {
    /// The answer as [`prove_bump`](crate::prove_bump) gives it for the id asked about.
    ///
    /// # Panics
    ///
    /// If its number is none of 01's: then it is no row's answer.
    pub fn proof(&self, id: &Hash) -> Result<Proof, Refusal> {
        let Self { refusal, carried, layer, sibling, position, layers, root } = *self;
        let number = u32::try_from(refusal).unwrap_or(u32::MAX);
        let blame = Blame { carried, layer, sibling };
        answer(number, blame, Proof { id: *id, position, layers, root })
    }
}

/// Asks one BUMP about a page of ids, and fills a lent row of answers.
///
/// The ids, up to [`MAX_PAGE`], stand end to end in stored order, 32 bytes each. Every id gets the answer that it
/// gets singly, in order; answers past the ids are zero.
///
/// Refused: 5 for more ids or a part of one, 22 for a row shorter than the ids, then as
/// [`read_bump`](crate::read_bump). A refusal zeroes the whole row.
///
/// ```
/// use barrowtide::{join, prove_page_into, Answer, Hash};
/// let bytes = [[0xaa; 32], [0xbb; 32]];
/// let bump = [&[0x00, 0x01, 0x02, 0x00, 0x02][..], &bytes[0], &[0x01, 0x00], &bytes[1]].concat();
/// let [id, sibling] = bytes.map(Hash::from_stored);
///
/// let mut row = [Answer { position: 7, ..Answer::default() }; 3];
/// prove_page_into(&bump, &[bytes[0], [0xcc; 32]].concat(), &mut row)?;
/// assert_eq!((row[0].refusal, row[0].layers, row[0].root), (0, 1, join(&id, &sibling)));
/// assert_eq!(row[1], Answer { refusal: 13, ..Answer::default() });
/// assert_eq!(row[2], Answer::default());
/// # Ok::<(), barrowtide::Refusal>(())
/// ```
pub fn prove_page_into(data: &[u8], ids: &[u8], row: &mut [Answer]) -> Result<(), Refusal> {
    let mut blame = Blame::default();
    let number = ffi::prove_page(data, ids, lent::answers(row), &mut blame);
    let whole = ids.len() % 32 == 0 && ids.len() <= 32 * MAX_PAGE;
    answer(number, blame, ()).map_err(|refusal| if whole { refusal } else { refusal.of_caller() })
}

/// Asks one BUMP about a page of ids, up to [`MAX_PAGE`]; the answers are those that
/// [`prove_bump`](crate::prove_bump) gives singly, in order.
///
/// ```
/// use barrowtide::{prove_bump, prove_page, Hash, Reason};
/// let bytes = [[0xaa; 32], [0xbb; 32]];
/// let bump = [&[0x00, 0x01, 0x02, 0x00, 0x02][..], &bytes[0], &[0x01, 0x00], &bytes[1]].concat();
/// let [id, sibling] = bytes.map(Hash::from_stored);
///
/// let page = prove_page(&bump, &[id, sibling, Hash::default()])?;
/// assert_eq!(page[0], prove_bump(&bump, &id));
/// assert_eq!(page[1], prove_bump(&bump, &sibling));
/// assert_eq!(page[2].unwrap_err().reason, Reason::NotListed);
///
/// assert_eq!(prove_page(&bump[..9], &[id]).unwrap_err().reason, Reason::Short);
/// # Ok::<(), barrowtide::Refusal>(())
/// ```
pub fn prove_page(data: &[u8], ids: &[Hash]) -> Result<Vec<Result<Proof, Refusal>>, Refusal> {
    let mut row = vec![Answer::default(); ids.len()];
    prove_page_into(data, &Hash::end_to_end(ids), &mut row)?;
    Ok(row.iter().zip(ids).map(|(answer, id)| answer.proof(id)).collect())
}
