//! Inputs made to cost the most: paths in which many climbs need siblings that take thousands of
//! joins, in no order.

use barrowtide::{merge_into, prove_page_into, Answer, Record, MAX_LISTED, MAX_PAGE, MERGE_EXTRA};
use reference::generate::random::Random;
use reference::Hash;

use crate::inputs::bundle::in_two_parts;
use crate::inputs::path::HEIGHT;
use crate::joins::{heading_most, most};
use crate::stored::{check_clients, prove_bump};

/// Prints the table of such inputs.
pub fn run() {
    heading_most("Inputs made to cost the most, beside the joins of the bound");
    let mut random = Random::of("hostile");
    for (name, missing) in [("", false), (", one leaf missing", true)] {
        let plan = in_two_parts(&mut random, missing);
        let path = &plan.bumps[0];
        let ids: Vec<Hash> = plan.entries.iter().map(|entry| entry.0.id()).collect();
        let bump = path.bump().bytes;
        let leaves: usize = path.levels.iter().map(Vec::len).sum();
        let alone = prove_bump(&bump, &ids[0]).map(|proof| proof.root);
        assert_eq!(check_clients(&bump), alone);
        most(
            &format!("512 clients, {} KB{name}", bump.len() / 1_000),
            512 * HEIGHT + 2 * leaves,
            || check_clients(&bump),
        );

        let page = ids.as_flattened();
        let mut answers = [Answer::default(); MAX_PAGE];
        assert_eq!(prove_page_into(&bump, page, &mut answers), Ok(()));
        most(&format!("a page of 256 ids{name}"), MAX_PAGE * HEIGHT + leaves, || {
            prove_page_into(&bump, page, &mut answers)
        });

        let mut bytes = vec![0; 2 * bump.len() + MERGE_EXTRA];
        let mut list = vec![0; 3 * MAX_LISTED];
        assert_eq!(merge_into(&bump, &bump, &mut bytes, &mut list).is_ok(), !missing);
        most(&format!("merged with itself{name}"), 2 * (512 * HEIGHT + 2 * leaves) * 2, || {
            merge_into(&bump, &bump, &mut bytes, &mut list)
        });

        let (beef, roots) = (plan.draft().bytes, plan.root_list());
        let mut table = [Record::default(); 256];
        assert_eq!(barrowtide::judge_into(&beef, &roots, 0, &mut table).is_ok(), !missing);
        most(&format!("256 transactions judged{name}"), 256 * HEIGHT + leaves, || {
            barrowtide::judge_into(&beef, &roots, 0, &mut table)
        });
    }
}
