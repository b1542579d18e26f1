//! Paths whose inner nodes are left out: the inputs that make the most joins.

use barrowtide::Record;
use reference::generate::bundle;
use reference::generate::path::Plan;
use reference::generate::random::Random;
use reference::judge::judge;
use reference::prove;

use crate::inputs::bundle::clients_alone;
use crate::inputs::path::{copied, halving, rise, shuffle};
use crate::joins::{heading, long_row, row};
use crate::measure::subject;
use crate::stored::{check_clients, prove_bump};

/// Prints the table of such paths.
pub fn run() {
    heading("Siblings worked out, beside the joins that this takes");
    let mut random = Random::of("merged");
    for shuffled in [false, true] {
        let order = if shuffled { "shuffled" } else { "rising" };
        let mut plan = clients_alone(&mut random);
        if shuffled {
            shuffle(&mut random, &mut plan.bumps[0]);
        }
        block(&format!("1,024 clients alone, {order}"), &plan);
        for height in [32, 64] {
            for (name, copies) in [("full levels", false), ("levels of copies", true)] {
                let (mut path, joins) = halving(height, copies);
                rise(&mut path);
                if shuffled {
                    shuffle(&mut random, &mut path);
                }
                one_id(&format!("{height} {name}, {order}"), &path, 0, joins);
            }
        }
    }
    for height in [32, 64] {
        let name = format!("copies at offset 1 of {} levels", height - 1);
        one_id(&name, &copied(height, [8; 32]), 1 << (height - 1), 2 * height - 1);
    }
}

/// Prints the rows of a block of 1,024 ids of which 256 are a bundle's transactions.
fn block(name: &str, plan: &bundle::Plan) {
    let path = &plan.bumps[0];
    one_id(name, path, 777, 1_023);

    let bump = path.bump().bytes;
    assert_eq!(check_clients(&bump), Ok(plan.roots[0]));
    long_row(
        "  check_clients",
        1_024 * 1_023,
        subject(|| check_clients(&bump)),
        subject(|| prove::all_clients(&bump)),
    );
    let (beef, roots) = (plan.draft().bytes, plan.root_list());
    let mut table = [Record::default(); 256];
    let judged = barrowtide::judge_into(&beef, &roots, 0, &mut table);
    assert_eq!(judged.map(|judged| judged.transactions), Ok(256));
    long_row(
        "  256 of them judged",
        256 * 1_023,
        subject(|| barrowtide::judge_into(&beef, &roots, 0, &mut table)),
        subject(|| judge(&beef, &roots, 0, 256)),
    );
}

/// Prints the row of a proof of the client at a position.
fn one_id(name: &str, path: &Plan, position: u64, joins: usize) {
    let bump = path.bump().bytes;
    let id = path.leaf(0, position).expect("a client").hash;
    assert_eq!(prove_bump(&bump, &id).map(|p| p.position), Ok(position));
    row(
        &format!("{name}, {} KB", bump.len() / 1_000),
        joins,
        subject(|| prove_bump(&bump, &id)),
        subject(|| prove::by_bump(&bump, &id)),
    );
}
