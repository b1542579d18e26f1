//! To and from TSC proofs.

use barrowtide::{tsc_to_bump_into, TSC_TO_BUMP_ROOM};
use reference::convert::{bump_to_tsc, tsc_to_bump};
use reference::generate::path::Plan;
use reference::generate::random::Random;
use reference::generate::tree::Tree;
use reference::generate::tsc;
use reference::Hash;

use crate::joins::{heading_beside, print};
use crate::measure::{seconds, subject, Subject};
use crate::stored::{bump_to_tsc_into, prove_bump, write_bump};

/// Prints the table of turning proofs, beside the proof alone.
pub fn run() {
    heading_beside("To and from TSC proofs in a block of 1,024 (10 layers)", "proof alone");
    let tree = Tree::random(&mut Random::of("convert"), 1_024);
    let position = 777;
    let id = &tree.ids()[position as usize];
    let mut path = Plan::of(&tree, &[position]);
    path.block_height = 1;
    let (bump, proof) = (path.bump().bytes, tsc::Plan::of(&tree, position).draft().bytes);

    let mut out = [0; TSC_TO_BUMP_ROOM];
    assert_eq!(tsc_to_bump_into(&proof, 1, &mut out), Ok(bump.len()));
    assert_eq!(out[..bump.len()], bump);
    row(
        "TSC proof to BUMP",
        subject(|| tsc_to_bump_into(&proof, 1, &mut out)),
        subject(|| tsc_to_bump(&proof, 1, TSC_TO_BUMP_ROOM)),
        subject(|| barrowtide::prove_tsc(&proof)),
    );
    back("BUMP to TSC proof", &bump, id, &proof);
    let all: Vec<u64> = (0..1_024).collect();
    let merged = write_bump(1, tree.ids(), &all).expect("a sound list");
    back("merged BUMP of 1,024 clients to TSC proof", &merged, id, &proof);
}

/// Prints the row of an id's climb in a BUMP, of which this TSC proof comes.
fn back(name: &str, bump: &[u8], id: &Hash, proof: &[u8]) {
    let mut out = vec![0; proof.len()];
    assert_eq!(bump_to_tsc_into(bump, id, &mut out), Ok(proof.len()));
    assert_eq!(out, proof);
    row(
        name,
        subject(|| bump_to_tsc_into(bump, id, &mut out)),
        subject(|| bump_to_tsc(bump, id, proof.len())),
        subject(|| prove_bump(bump, id)),
    );
}

fn row(name: &str, library: Subject, reference: Subject, alone: Subject) {
    print(name, &seconds(vec![library, reference, alone]));
}
