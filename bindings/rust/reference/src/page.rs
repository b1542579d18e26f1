//! A page of ids against one BUMP (02, Item 2).

use crate::bump;
use crate::prove::climb_path;
use crate::refusal::{refuse, Refusal, NO_ROOM, OVER_LIMIT};
use crate::Hash;

/// What the lent row holds for an id; all zero past the ids.
#[derive(Debug, Clone, Copy, Default, PartialEq, Eq)]
pub struct Answer {
    /// The number of the refusal, 0 if the id is proved.
    pub refusal: u64,
    /// What the refusal carries.
    pub carried: u64,
    /// Of 14 and 15 the sibling's layer.
    pub layer: u64,
    /// Of 14 and 15 the sibling's position in that layer.
    pub sibling: u64,
    /// The id's position in the block.
    pub position: u64,
    /// The number of layers above it.
    pub layers: u64,
    /// The root.
    pub root: Hash,
}

/// Asks a BUMP about ids that stand end to end: whether the page is answered, and the row of `room`
/// answers as it is left.
pub fn prove_page(data: &[u8], ids: &[u8], room: usize) -> (Result<(), Refusal>, Vec<Answer>) {
    let mut row = vec![Answer::default(); room];
    let told =
        answers(data, ids, room).map(|answers| row[..answers.len()].copy_from_slice(&answers));
    (told, row)
}

/// The answers of a page: 5, 22, and the BUMP's own refusal come before them.
fn answers(data: &[u8], ids: &[u8], room: usize) -> Result<Vec<Answer>, Refusal> {
    let count = ids.len() / 32;
    if count > 256 || ids.len() % 32 != 0 {
        return refuse(OVER_LIMIT, 0);
    }
    if room < count {
        return refuse(NO_ROOM, 0);
    }
    let path = bump::read(data)?.path;
    let single = |id: &[u8]| match climb_path(&path, &std::array::from_fn(|i| id[i])) {
        Err(Refusal { number, carried, layer, sibling }) => {
            Answer { refusal: u64::from(number), carried, layer, sibling, ..Answer::default() }
        }
        Ok(climb) => Answer {
            position: climb.position,
            layers: climb.layers.len() as u64,
            root: climb.root(),
            ..Answer::default()
        },
    };
    Ok(ids.chunks_exact(32).map(single).collect())
}
