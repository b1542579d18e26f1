//! Writing the BUMP of a block's ids.

use barrowtide::write_bump_into;
use reference::generate::list::Plan;
use reference::generate::random::Random;
use reference::write::write_bump;

use crate::joins::{heading, row};
use crate::measure::subject;

/// Prints the table of writing.
pub fn run() {
    heading("BUMPs written of a block of 1,024 ids (1,023 joins)");
    let mut random = Random::of("write");
    compare("one position", &Plan::new(&mut random, 1_024, vec![777]));
    compare("all positions", &Plan::new(&mut random, 1_024, (0..1_024).collect()));
}

fn compare(name: &str, plan: &Plan) {
    let Plan { block_height, ids, positions } = plan;
    let told = write_bump(*block_height, ids, positions, usize::MAX).expect("a sound list");
    let mut out = vec![0; told.len()];
    assert_eq!(write_bump_into(*block_height, ids, positions, &mut out), Ok(told.len()));
    assert_eq!(out, told);
    row(
        name,
        1_023,
        subject(|| write_bump_into(*block_height, ids, positions, &mut out)),
        subject(|| write_bump(*block_height, ids, positions, usize::MAX)),
    );
}
