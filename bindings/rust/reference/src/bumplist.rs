//! What the program `bumplist` prints.

use crate::bump::{self, Bump};
use crate::hex::printed;
use crate::path::Node;
use crate::refusal::{Refusal, TOO_LONG};

/// The program's text for what stands on its standard input.
pub fn text(input: &[u8]) -> String {
    let answer =
        if input.len() > 65_536 { Err(Refusal::new(TOO_LONG, 0)) } else { bump::read(input) };
    match answer {
        Ok(bump) => listing(&bump),
        Err(refusal) => format!("refused {} at {}\n", refusal.number, refusal.carried),
    }
}

fn listing(bump: &Bump) -> String {
    let mut text = format!("block {}\nheight {}\n", bump.block_height, bump.path.tree_height());
    for (number, level) in bump.path.levels.iter().enumerate() {
        text += &format!("level {} leaves {}\n", number, level.len());
        for leaf in level {
            text += &match leaf.node {
                Node::Plain(hash) => format!("leaf {} plain {}\n", leaf.offset, printed(&hash)),
                Node::Copy => format!("leaf {} copy\n", leaf.offset),
                Node::Client(hash) => format!("leaf {} client {}\n", leaf.offset, printed(&hash)),
            };
        }
    }
    text + "ok\n"
}

#[cfg(test)]
mod tests {
    use super::text;

    #[test]
    fn example() {
        let listing = "block 0\nheight 1\nlevel 0 leaves 1\nleaf 1 copy\nok\n";
        assert_eq!(text(&[0, 1, 1, 1, 1]), listing);
        assert_eq!(text(&[0, 0]), "refused 4 at 1\n");
    }
}
