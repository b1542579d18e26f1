//! Comparing two proofs: the library against the reference.
//!
//! Two different strings of equal hash are not known, so every answer here is a refusal.

#[path = "common/claims.rs"]
mod claims;
mod common;

use barrowtide::ffi;
use barrowtide::MAX_INPUT;
use claims::{claim, damaged, describe, lent, wrapped};
use common::{expected, plain, GUARDED};
use reference::compare::{compare, Claim};
use reference::generate::random::{rounds, Random};
use reference::generate::tally::Tally;
use reference::generate::tree::Tree;
use reference::generate::tsc;
use reference::hex::expand;
use reference::refusal::Refusal;

type Strings = ([u8; 64], [u8; 64]);

fn check(first: &Claim, second: &Claim) -> Result<Strings, Refusal> {
    let told = compare(first, second);
    let fill = ([0xa5; 64], [0x5a; 64]);
    for tsc in [2, 3, u32::MAX] {
        let (mut guarded, mut strings) = (GUARDED, fill);
        let number = ffi::compare(
            lent(first, tsc),
            lent(second, tsc),
            &mut guarded.blame,
            &mut strings.0,
            &mut strings.1,
        );
        let after = (number, guarded, strings);
        assert_eq!(after, expected(told, fill), "{}", describe(first, second));
    }
    let safe = barrowtide::compare(wrapped(first), wrapped(second));
    let safe = safe.map(|collision| (collision.first, collision.second)).map_err(plain);
    assert_eq!(safe, told, "{}", describe(first, second));
    told
}

fn number(answer: Result<Strings, Refusal>) -> u32 {
    answer.map_or_else(|refusal| refusal.number, |_| 0)
}

#[test]
fn examples() {
    let tsc = |example: &str| Claim::Tsc(expand(example));
    let bump = |example: &str, id: u8| Claim::Bump(expand(example), [id; 32]);
    let cmp = |example: &str, id: u8| Claim::Cmp(expand(example), [id; 32]);
    let alone = tsc("00 00 [aa] [bb] 00");
    let pair = "00 01 02 00 02 [aa] 01 00 [bb]";
    let compound = "00 02 00 [aa] 01 [bb]";
    // No layers: one root is one id.
    assert_eq!(number(check(&alone, &tsc("04 00 [aa] [aa] 00"))), 24);
    assert_eq!(number(check(&alone, &tsc("00 00 [ab] [bb] 00"))), 23);
    // The first proof's refusal comes first, whatever the second is.
    assert_eq!(number(check(&tsc("04 00 [aa] [bb] 00"), &tsc("06"))), 16);
    assert_eq!(number(check(&tsc("06"), &tsc("04 00 [aa] [bb] 00"))), 7);
    assert_eq!(check(&alone, &bump("00 01 01 02", 0)).unwrap_err().carried, 3);
    // One id by different forms; the id beside it; another block height.
    assert_eq!(number(check(&bump(pair, 0xaa), &cmp(compound, 0xaa))), 24);
    assert_eq!(number(check(&bump(pair, 0xaa), &cmp(compound, 0xbb))), 23);
    assert_eq!(number(check(&bump(pair, 0xaa), &tsc("00 00 [aa] [cc] 01 00 [bb]"))), 24);
    assert_eq!(number(check(&bump(pair, 0xaa), &bump("05 01 02 00 00 [aa] 01 00 [bb]", 0xaa))), 24);
    assert_eq!(number(check(&bump(pair, 0xaa), &bump(pair, 0xcc))), 13);
    // The sibling of the proof that is refused, the first of two.
    let blamed = |number, layer, sibling| Err(Refusal::of_sibling(number, layer, sibling));
    let twin = tsc("00 03 [aa] [bb] 02 00 [cc] 01");
    let missing = bump("00 03 02 04 02 [aa] 05 00 [ab] 00 00", 0xaa);
    assert_eq!(check(&twin, &missing), blamed(15, 1, 0));
    assert_eq!(check(&missing, &twin), blamed(14, 1, 3));
    assert_eq!(check(&alone, &twin), blamed(15, 1, 0));
    assert_eq!(check(&twin, &tsc("06")), blamed(15, 1, 0));
    assert_eq!(check(&tsc("06"), &twin), Err(Refusal::new(7, 0)));
}

/// Sound proofs of one tree or of two, in every mixture of forms.
#[test]
fn sound_pairs() {
    let mut random = Random::of("sound_pairs");
    for _ in 0..rounds() {
        let count = random.within(2..=30) as usize;
        let (tree, other) = (Tree::random(&mut random, count), Tree::random(&mut random, count));
        let (one, two) = (random.index(count) as u64, random.index(count) as u64);
        let first = claim(&mut random, &tree, one);
        let same = claim(&mut random, &tree, one);
        assert_eq!(number(check(&first, &same)), 24);
        let second = claim(&mut random, &tree, two);
        assert_eq!(number(check(&first, &second)), if one == two { 24 } else { 23 });
        let elsewhere = claim(&mut random, &other, one);
        assert_eq!(number(check(&first, &elsewhere)), 23);
    }
}

/// A path whose client is an inner node has fewer layers and the same root: 23.
#[test]
fn other_number_of_layers() {
    let mut random = Random::of("other_number_of_layers");
    for _ in 0..50 {
        let tree = Tree::random(&mut random, 8);
        let inner = Tree::new((0..4).map(|position| tree.hash(1, position)).collect());
        let deep = claim(&mut random, &tree, 0);
        let shallow = claim(&mut random, &inner, 0);
        assert_eq!(number(check(&deep, &shallow)), 23);
    }
}

/// Damage to one of two proofs, or to both.
#[test]
fn damaged_pairs() {
    let mut random = Random::of("damaged_pairs");
    let mut tally = Tally::default();
    for _ in 0..rounds() {
        let count = random.within(2..=12) as usize;
        let tree = Tree::random(&mut random, count);
        let position = random.index(count) as u64;
        let sound = claim(&mut random, &tree, position);
        let one = damaged(&mut random, &tree, position);
        let other = damaged(&mut random, &tree, position);
        tally.note(check(&sound, &one));
        tally.note(check(&one, &sound));
        tally.note(check(&one, &other));
    }
    if rounds() >= 1_000 {
        tally.assert_met(&[2, 3, 4, 5, 6, 7, 8, 9, 13, 14, 15, 16, 23, 24]);
    }
}

#[test]
fn sizes() {
    let mut random = Random::of("sizes");
    let tree = Tree::random(&mut random, 2);
    let sound = Claim::Tsc(tsc::Plan::of(&tree, 0).draft().bytes);
    let short = Claim::Tsc(vec![0]);
    let longer = vec![0; MAX_INPUT + 1];
    for long in [Claim::Bump(longer.clone(), [0; 32]), Claim::Cmp(longer, [0; 32])] {
        assert_eq!(number(check(&long, &short)), 1);
        assert_eq!(number(check(&short, &long)), 2);
        assert_eq!(number(check(&sound, &long)), 1);
    }
}
