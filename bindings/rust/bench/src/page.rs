//! Pages of ids against one BUMP.

use barrowtide::{prove_page_into, Answer, MAX_PAGE};
use reference::generate::path::Plan;
use reference::generate::random::Random;
use reference::generate::tree::Tree;
use reference::page::prove_page;
use reference::Hash;

use crate::inputs::path::buried;
use crate::joins::{at_once, heading, heading_at_once, row};
use crate::measure::subject;
use crate::stored::{check_clients, prove_bump};

/// Prints the table of pages.
pub fn run() {
    heading("Pages of 256 ids (a join for each id and layer)");
    let tree = Tree::random(&mut Random::of("page"), 1_024);
    let positions: Vec<u64> = (0..MAX_PAGE as u64).map(|number| 4 * number).collect();
    let ids: Vec<Hash> = positions.iter().map(|&position| tree.hash(0, position)).collect();
    let repeated: Vec<Hash> = ids[..4].iter().cycle().take(MAX_PAGE).copied().collect();
    let small = Plan::of(&tree, &positions[..4]);
    compare("BUMP of 10 layers, 8 leaves at level 0", &small, &repeated, tree.root());
    compare(
        "BUMP of 10 layers, 512 leaves at level 0",
        &Plan::of(&tree, &positions),
        &ids,
        tree.root(),
    );
    for height in [32, 64] {
        let (path, root) = buried(&tree, &positions, height);
        compare(&format!("BUMP, {height} levels of 1,024 falling leaves"), &path, &ids, root);
    }

    heading_at_once("256 climbs by one BUMP of 10 layers, beside as many calls of prove_bump");
    let few = small.bump().bytes;
    page_at_once("page, 8 leaves at level 0", &few, &repeated);
    let bump = Plan::of(&tree, &positions).bump().bytes;
    page_at_once("page, 512 leaves at level 0", &bump, &ids);
    let prove_each = subject(|| ids.iter().all(|id| prove_bump(&bump, id).is_ok()));
    at_once(
        "all clients, 512 leaves",
        10 * ids.len(),
        subject(|| check_clients(&bump)),
        prove_each,
    );
}

fn page_at_once(name: &str, bump: &[u8], ids: &[Hash]) {
    let mut answers = [Answer::default(); MAX_PAGE];
    at_once(
        name,
        10 * ids.len(),
        subject(|| prove_page_into(bump, ids.as_flattened(), &mut answers)),
        subject(|| ids.iter().all(|id| prove_bump(bump, id).is_ok())),
    );
}

fn compare(name: &str, path: &Plan, ids: &[Hash], root: Hash) {
    let (bump, ids) = (path.bump().bytes, ids.as_flattened());
    let mut answers = [Answer::default(); MAX_PAGE];
    assert_eq!(prove_page_into(&bump, ids, &mut answers), Ok(()));
    assert!(answers.iter().all(|answer| answer.root.stored() == &root));
    row(
        name,
        MAX_PAGE * path.levels.len(),
        subject(|| prove_page_into(&bump, ids, &mut answers)),
        subject(|| prove_page(&bump, ids, MAX_PAGE)),
    );
}
