//! A list of leaves beside the path (02, Item 14).

use crate::bump::{self, Bump};
use crate::generate::draft::varint;
use crate::refusal::{refuse, Refusal, NO_ROOM};

/// A leaf of the list: its level, its offset, and the place of its first byte, which is its offset's.
pub type Row = [u64; 3];

/// The list of a BUMP's leaves, if there is room for so many.
pub fn build(data: &[u8], room: usize) -> Result<Vec<Row>, Refusal> {
    let list = list(&bump::read(data)?);
    if list.len() > room {
        return refuse(NO_ROOM, 0);
    }
    Ok(list)
}

/// "Its leaves by level and offset, with the place of each one's first byte."
pub fn list(bump: &Bump) -> Vec<Row> {
    let mut list = as_written(bump);
    list.sort();
    list
}

/// "The place of the leaf that the plain search finds, or none when that finds none": the plain
/// search takes the leaves as they are written.
pub fn search(data: &[u8], level: u64, offset: u64) -> Result<Option<u64>, Refusal> {
    let list = as_written(&bump::read(data)?);
    let found = list.into_iter().find(|row| row[..2] == [level, offset]);
    Ok(found.map(|row| row[2]))
}

/// Every leaf in written order; fields have no other lengths than the shortest ones.
fn as_written(bump: &Bump) -> Vec<Row> {
    let mut rows = Vec::new();
    let mut place = varint(bump.block_height).len() + 1;
    for (level, leaves) in (0..).zip(&bump.path.levels) {
        place += varint(leaves.len() as u64).len();
        for leaf in leaves {
            rows.push([level, leaf.offset, place as u64]);
            place += varint(leaf.offset).len() + 1 + leaf.node.hash().map_or(0, |hash| hash.len());
        }
    }
    rows
}

#[cfg(test)]
mod tests {
    use super::*;
    use crate::hex::expand;
    use crate::refusal::BAD_HEIGHT;

    #[test]
    fn examples() {
        let bump = expand("fd 00 01 02 03 03 01 00 00 [aa] 02 02 [bb] 01 01 01");
        let list = vec![[0, 0, 7], [0, 2, 41], [0, 3, 5], [1, 1, 76]];
        assert_eq!(build(&bump, 4), Ok(list));
        assert_eq!(build(&bump, 3), refuse(NO_ROOM, 0));
        assert_eq!(build(&expand("00 00"), 0), refuse(BAD_HEIGHT, 1));
        assert_eq!(build(&expand("00 01 00"), 0), Ok(vec![]));
        assert_eq!(search(&bump, 0, 2), Ok(Some(41)));
        assert_eq!(search(&bump, 1, 2), Ok(None));
        assert_eq!(search(&bump, 9, 0), Ok(None));
    }
}
