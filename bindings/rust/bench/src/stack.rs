//! The stack that each call takes, on inputs that lead it to its deepest function.

use std::ffi::{c_char, CStr};

use reference::generate::random::Random;
use reference::generate::{set, transaction};

use crate::inputs::bundle::spent_once;
use crate::inputs::path::{two_parts, whole_tsc};
use crate::inputs::set::of_one_length;

extern "C" {
    fn stack_of(
        call: *const c_char,
        data: *const u8,
        len: usize,
        more: *const u8,
        more_len: usize,
    ) -> usize;
}

/// Prints the table of the stack.
pub fn run() {
    let mut random = Random::of("stack");
    let own = transaction::Plan::spending(&mut random, &[([7; 32], 0)], &[1_000]);
    let (id, raw) = (own.id(), own.draft().bytes);
    let proof = whole_tsc(&mut random, &own);
    let bundle = spent_once(&mut random, own);
    let (beef, roots) = (bundle.draft().bytes, bundle.root_list());
    let (bump, cmp) = (bundle.bumps[0].bump().bytes, bundle.bumps[0].cmp().bytes);
    let set = set::draft(&of_one_length()).bytes;
    let clients: Vec<_> = (0..8).map(|_| random.hash()).collect();
    let many = two_parts(&mut random, &clients, false).bump().bytes;

    println!("\nStack of a call, in bytes");
    row(c"sha256d", &raw, &[]);
    row(c"join", &id, &id);
    row(c"read_varint", &[0xfd, 0xfd, 0], &[]);
    row(c"read_bump", &bump, &[]);
    row(c"read_cmp", &cmp, &[]);
    row(c"read_transaction", &raw, &[]);
    row(c"parts_start", &[], &[]);
    row(c"parts_part", &raw, &[]);
    row(c"parts_end", &raw, &[]);
    row(c"read_tsc", &proof, &[]);
    row(c"read_beef", &beef, &[]);
    row(c"prove_bump", &bump, &id);
    row(c"prove_cmp", &cmp, &id);
    row(c"prove_tsc", &proof, &[]);
    row(c"check_clients", &many, &[]);
    row(c"prove_page", &bump, &[id; 256].concat());
    row(c"compare", &bump, &id);
    row(c"compare_depths", &bump, &id);
    row(c"differences", &bump, &[]);
    row(c"shorter", &bump, &id);
    row(c"list_leaves", &bump, &[]);
    row(c"search_leaves", &bump, &[]);
    row(c"merge", &many, &many);
    row(c"judge_beef", &beef, &roots);
    row(c"order", &set, &[]);
    row(c"check_order", &set, &[]);
    row(c"write_bump", &random.bytes(32 * 1_024), &[]);
    row(c"tsc_to_bump", &proof, &[]);
    row(c"bump_to_tsc", &bump, &id);
}

fn row(call: &CStr, data: &[u8], more: &[u8]) {
    // SAFETY: the name ends in 0; the call reads what is lent within its length, and 32 bytes where
    // an id or a node is lent.
    let bytes =
        unsafe { stack_of(call.as_ptr(), data.as_ptr(), data.len(), more.as_ptr(), more.len()) };
    println!("{:<20} {bytes:>8}", call.to_string_lossy());
}
