//! Proofs to compare, in every form, sound and damaged.

use barrowtide::ffi::Lent;
use reference::compare::Claim;
use reference::generate::damage::random_edit;
use reference::generate::path::Plan;
use reference::generate::random::Random;
use reference::generate::tree::Tree;
use reference::generate::tsc;
use reference::hex::show;
use reference::Hash;

/// The claim as the C call takes it; `tsc` is the number that stands for a TSC proof.
pub fn lent(claim: &Claim, tsc: u32) -> Lent<'_> {
    match claim {
        Claim::Bump(data, id) => Lent { form: 0, data, id },
        Claim::Cmp(data, id) => Lent { form: 1, data, id },
        Claim::Tsc(data) => Lent { form: tsc, data, id: &[0x77; 32] },
    }
}

fn from_stored(id: Hash) -> barrowtide::Hash {
    barrowtide::Hash::from_stored(id)
}

/// The claim as the wrapper takes it.
pub fn wrapped(claim: &Claim) -> barrowtide::Claim<'_> {
    match claim {
        Claim::Bump(data, id) => barrowtide::Claim::Bump { data, id: from_stored(*id) },
        Claim::Cmp(data, id) => barrowtide::Claim::Cmp { data, id: from_stored(*id) },
        Claim::Tsc(data) => barrowtide::Claim::Tsc { data },
    }
}

/// Both, to tell which were compared.
pub fn describe(first: &Claim, second: &Claim) -> String {
    let data = |claim: &Claim| match claim {
        Claim::Bump(data, id) => format!("bump {} for {}", show(data), show(id)),
        Claim::Cmp(data, id) => format!("cmp {} for {}", show(data), show(id)),
        Claim::Tsc(data) => format!("tsc {}", show(data)),
    };
    format!("{} and {}", data(first), data(second))
}

/// A proof of an id in a form of choice.
pub fn claim(random: &mut Random, tree: &Tree, position: u64) -> Claim {
    let id: Hash = tree.ids()[position as usize];
    let mut path = Plan::of(tree, &[position]);
    path.thin(random, tree);
    match random.within(0..=2) {
        0 => Claim::Bump(path.bump().bytes, id),
        1 => Claim::Cmp(path.cmp().bytes, id),
        _ => Claim::Tsc(tsc::Plan::of(tree, position).draft().bytes),
    }
}

/// The same with damage to the proof.
pub fn damaged(random: &mut Random, tree: &Tree, position: u64) -> Claim {
    let id = tree.ids()[position as usize];
    let mut plan = Plan::of(tree, &[position]);
    plan.thin(random, tree);
    let mut proof = tsc::Plan::of(tree, position);
    let spoil = random.one_in(2);
    if spoil {
        plan.spoil(random);
        proof.spoil(random);
    }
    let drafts = [plan.bump(), plan.cmp(), proof.draft()];
    let form = random.index(3);
    let data = if spoil { drafts[form].bytes.clone() } else { random_edit(random, &drafts[form]) };
    match form {
        0 => Claim::Bump(data, id),
        1 => Claim::Cmp(data, id),
        _ => Claim::Tsc(data),
    }
}
