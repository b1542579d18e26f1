//! A list of leaves beside a BUMP, searches in it, and two BUMPs merged.

use barrowtide::{list_leaves_into, merge_into, LeafList, MAX_LISTED, MERGE_EXTRA};
use reference::generate::path::Plan;
use reference::generate::random::Random;
use reference::generate::tree::Tree;
use reference::leaves;
use reference::merge::merge;

use crate::inputs::path::{buried, falling, ids_alone, rise, shuffle};
use crate::measure::{seconds, subject};
use crate::read::{heading, row, seconds_of};

/// Prints the tables of lists, searches and merges.
pub fn run() {
    let mut random = Random::of("leaves");
    let tree = Tree::random(&mut random, 1_024);
    lists(&mut random, &tree);
    merges(&mut random, &tree);
}

fn lists(random: &mut Random, tree: &Tree) {
    heading("Leaves of a BUMP listed, and searched for in the list and in the BUMP");
    list("10 layers, one client", &Plan::of(tree, &[777]));
    let mut path = falling(64, false);
    list("64 levels of 1,024 falling", &path);
    rise(&mut path);
    list("64 levels of 1,024 rising", &path);
    shuffle(random, &mut path);
    list("64 levels of 1,024 shuffled", &path);
}

fn list(name: &str, path: &Plan) {
    let bytes = path.bump().bytes;
    let told = leaves::build(&bytes, usize::MAX).expect("a sound path");
    let mut room = vec![0; 3 * MAX_LISTED];
    assert_eq!(list_leaves_into(&bytes, &mut room), Ok(told.len()));
    assert_eq!(room[..3 * told.len()], *told.as_flattened());
    let times = seconds(vec![
        subject(|| list_leaves_into(&bytes, &mut room)),
        subject(|| leaves::build(&bytes, usize::MAX)),
    ]);
    row(name, bytes.len(), times[0], times[1]);

    // Every tenth leaf; the reference searches the BUMP, which it has read.
    let built = LeafList::build(&bytes).expect("a sound path");
    let levels = reference::bump::read(&bytes).expect("a sound path").path;
    let asked: Vec<(u64, u64)> =
        built.iter().step_by(10).map(|leaf| (leaf.level, leaf.offset)).collect();
    let times = seconds(vec![
        subject(|| asked.iter().filter_map(|leaf| built.search(leaf.0, leaf.1)).count()),
        subject(|| {
            let found = |leaf: &&(u64, u64)| levels.leaf(leaf.0 as usize, leaf.1).is_some();
            asked.iter().filter(found).count()
        }),
    ]);
    let one = |time: f64| time / asked.len() as f64;
    row("  a search", bytes.len(), one(times[0]), one(times[1]));
}

fn merges(random: &mut Random, tree: &Tree) {
    heading("Two BUMPs merged");
    let of = |positions: &[u64]| Plan::of(tree, positions);
    compare("one client and another, 10 layers", &of(&[777]), &of(&[3]));
    let some =
        |random: &mut Random| -> Vec<u64> { (0..64).map(|_| random.within(0..=1_023)).collect() };
    let (one, other) = (some(random), some(random));
    compare("64 clients and 64 others, 10 layers", &of(&one), &of(&other));
    let halves = [0..512, 512..1_024].map(|half| of(&half.collect::<Vec<_>>()));
    compare("512 clients and 512 others, siblings written", &halves[0], &halves[1]);
    for (name, mut path) in [
        ("siblings written", Plan::whole(tree)),
        ("and nothing else", ids_alone(Plan::whole(tree))),
    ] {
        compare(&format!("1,024 clients, {name}, with itself"), &path, &path);
        shuffle(random, &mut path);
        compare("  in no order", &path, &path);
    }
    let mut full = buried(tree, &[0], 64).0;
    compare("64 levels of 1,024 falling, with itself", &full, &full);
    shuffle(random, &mut full);
    compare("64 levels of 1,024 shuffled, with itself", &full, &full);
}

fn compare(name: &str, first: &Plan, second: &Plan) {
    let (first, second) = (first.bump().bytes, second.bump().bytes);
    let told = merge(&first, &second, usize::MAX, usize::MAX).expect("two paths of one block");
    let mut bytes = vec![0; first.len() + second.len() + MERGE_EXTRA];
    let mut list = vec![0; 3 * MAX_LISTED];
    let merged = merge_into(&first, &second, &mut bytes, &mut list).expect("the same");
    assert!(bytes[..merged.written] == told.bytes);
    assert!(list[..3 * merged.leaves] == *told.list.as_flattened());
    row(
        name,
        first.len() + second.len(),
        seconds_of(|| merge_into(&first, &second, &mut bytes, &mut list)),
        seconds_of(|| merge(&first, &second, usize::MAX, usize::MAX)),
    );
}
