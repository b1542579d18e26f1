//! Compound path, CMP (001).

use crate::fields::Cursor;
use crate::path::{read_level, Node, Path};
use crate::refusal::{refuse, Refusal, BAD_HEIGHT};

/// Reads an input that is one compound path. Its levels are written from the top down.
pub fn read(data: &[u8]) -> Result<Path, Refusal> {
    let mut cursor = Cursor::new(data)?;
    let top = u32::from(cursor.byte()?);
    if top > 63 {
        return refuse(BAD_HEIGHT, 0);
    }
    let mut levels = (0..=top)
        .rev()
        .map(|level| {
            read_level(&mut cursor, top + 1, level, |cursor, _| Ok(Node::Plain(cursor.hash()?)))
        })
        .collect::<Result<Vec<_>, _>>()?;
    levels.reverse();
    cursor.end()?;
    Ok(Path { levels })
}
