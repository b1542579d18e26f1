//! Proving an id by each form, and comparing two proofs of different numbers of layers.

use reference::compare::Claim;
use reference::depth::compare_depths;
use reference::generate::path::Plan;
use reference::generate::random::Random;
use reference::generate::tree::Tree;
use reference::generate::tsc;
use reference::prove;

use crate::inputs::path::{above, buried};
use crate::inputs::transaction::with;
use crate::measure::{seconds, subject, Subject};
use crate::read::{heading, row, seconds_of};
use crate::stored::{check_clients, join, prove_bump, prove_cmp};

/// Prints the tables of proofs.
pub fn run() {
    let tree = Tree::random(&mut Random::of("prove"), 1_024);
    let position = 777;
    let id = tree.ids()[position as usize];
    let path = Plan::of(&tree, &[position]);
    let (bump, cmp) = (path.bump().bytes, path.cmp().bytes);
    let proof = tsc::Plan::of(&tree, position).draft().bytes;
    assert_eq!(prove_bump(&bump, &id).map(|proof| proof.root), Ok(tree.root()));

    println!("\nProofs of one id in a block of 1,024 (10 layers)");
    println!(
        "{:<20} {:>12} {:>12} {:>6} {:>22}",
        "", "library", "reference", "ratio", "hashing, of all time"
    );
    let table = |name, joins: f64, library: Subject, reference: Subject| {
        let times = seconds(vec![library, reference, subject(|| join(&id, &id))]);
        println!(
            "{name:<20} {:>10.0}/s {:>10.0}/s {:>6.2} {:>20.0} %",
            1.0 / times[0],
            1.0 / times[1],
            times[0] / times[1],
            100.0 * joins * times[2] / times[0]
        );
    };
    table(
        "by BUMP",
        10.0,
        subject(|| prove_bump(&bump, &id)),
        subject(|| prove::by_bump(&bump, &id)),
    );
    table("by CMP", 10.0, subject(|| prove_cmp(&cmp, &id)), subject(|| prove::by_cmp(&cmp, &id)));
    let (by_tsc, by_reference) = (|| barrowtide::prove_tsc(&proof), || prove::by_tsc(&proof));
    table("by TSC", 10.0, subject(by_tsc), subject(by_reference));
    // The same id, and the node above it with a layer less. A transaction of 226 bytes is hashed in
    // five compressions, a pair of nodes in three.
    let upper = above(&tree);
    let short = Plan::of(&upper, &[position / 2]).bump().bytes;
    let node = upper.ids()[position as usize / 2];
    let raw = with(1, vec![7; 107], 2).draft().bytes;
    assert_eq!(raw.len(), 226);
    let two = (Claim::Bump(short.clone(), node), Claim::Bump(bump.clone(), id));
    let bump_of =
        |data, id| barrowtide::Claim::Bump { data, id: barrowtide::Hash::from_stored(id) };
    let (one, other) = (bump_of(&short, node), bump_of(&bump, id));
    table(
        "compare 9 and 10",
        9.0 + 10.0 + 5.0 / 3.0,
        subject(|| barrowtide::compare_depths(one, other, &raw)),
        subject(|| compare_depths(&two.0, &two.1, &raw)),
    );
    worst_cases(&tree);
}

fn worst_cases(tree: &Tree) {
    heading("Worst cases of proving");
    let id = tree.ids()[0];
    let all: Vec<u64> = (0..tree.ids().len() as u64).collect();
    for height in [32, 64] {
        let (path, root) = buried(tree, &[0], height);
        let bytes = path.bump().bytes;
        let prove = || prove_bump(&bytes, &id).map(|proof| proof.root);
        row(
            &format!("prove_bump, {height} levels of 1,024 falling leaves"),
            bytes.len(),
            seconds_of(|| assert_eq!(prove(), Ok(root))),
            seconds_of(|| prove::by_bump(&bytes, &id).expect("a sound proof")),
        );
        let (path, root) = buried(tree, &all, height);
        let bytes = path.bump().bytes;
        row(
            "check_clients, the same with 1,024 clients",
            bytes.len(),
            seconds_of(|| assert_eq!(check_clients(&bytes), Ok(root))),
            seconds_of(|| prove::all_clients(&bytes).expect("sound proofs")),
        );
    }
}
