//! Two BUMPs side by side.

use barrowtide::{differences_into, MAX_DIFFERENCES};
use reference::difference::differences;
use reference::generate::path::Plan;
use reference::generate::random::Random;
use reference::generate::tree::Tree;

use crate::inputs::path::{beside, falling, rise, shuffle};
use crate::read::{heading, row, seconds_of};

/// Prints the table of differences.
pub fn run() {
    heading("Differences of two BUMPs");
    let mut random = Random::of("difference");
    let tree = Tree::random(&mut random, 1_024);
    let small = Plan::of(&tree, &[777]);
    compare("10 layers, one client, no difference", &small, &small);
    for (name, height, apart) in
        [("same offsets", 32, false), ("other offsets", 32, true), ("other offsets", 64, true)]
    {
        let (mut first, mut second) = (falling(height, false), beside(height, apart));
        compare(&format!("{height} levels of 1,024 falling, {name}"), &first, &second);
        [&mut first, &mut second].into_iter().for_each(rise);
        compare(&format!("{height} levels of 1,024 rising, {name}"), &first, &second);
        [&mut first, &mut second].into_iter().for_each(|path| shuffle(&mut random, path));
        compare(&format!("{height} levels of 1,024 shuffled, {name}"), &first, &second);
    }
}

fn compare(name: &str, first: &Plan, second: &Plan) {
    let (first, second) = (first.bump().bytes, second.bump().bytes);
    let told = differences(&first, &second, usize::MAX).expect("two sound paths");
    let mut list = vec![0; 3 * MAX_DIFFERENCES];
    assert_eq!(differences_into(&first, &second, &mut list), Ok(told.len()));
    assert_eq!(list[..3 * told.len()], *told.as_flattened());
    row(
        name,
        first.len() + second.len(),
        seconds_of(|| differences_into(&first, &second, &mut list)),
        seconds_of(|| differences(&first, &second, usize::MAX)),
    );
}
