//! Comparing two proofs of different numbers of layers, with the raw transaction of the shorter one:
//! the library against the reference; and inner nodes that pose as payments, wherever one is read.
//!
//! Two different strings of equal hash are not known, so every answer of comparing is a refusal.

#[path = "common/claims.rs"]
mod claims;
mod common;

use std::borrow::Cow;

use barrowtide::{ffi, read_transaction, Reason, TransactionReader, MAX_INPUT};
use claims::{claim, damaged, describe, lent, wrapped};
use common::{expected, plain, FILL, GUARDED};
use reference::compare::{compare, Claim};
use reference::depth::{compare_depths, Strings};
use reference::generate::damage::{field_edits, random_edit, truncations};
use reference::generate::path;
use reference::generate::random::{rounds, Random};
use reference::generate::tally::Tally;
use reference::generate::transaction::Plan;
use reference::generate::tree::Tree;
use reference::generate::tsc;
use reference::hex::{expand, show};
use reference::refusal::Refusal;
use reference::sha256::{join, sha256d};
use reference::Hash;

/// Whether the first string is the transaction, and both strings, as they are lent.
type Lent = (u64, [u8; 64], [u8; 64]);

const FILLED: Lent = (FILL, [0xa5; 64], [0x5a; 64]);

/// Memory that a call leaves if these strings are told: the first stays if it is the transaction.
fn given((first, second): Strings) -> Lent {
    (u64::from(first.is_none()), first.unwrap_or(FILLED.1), second)
}

/// Compares number, blame and all lent memory, and what the wrapper says.
fn check(first: &Claim, second: &Claim, raw: &[u8]) -> Result<Strings, Refusal> {
    let told = compare_depths(first, second, raw);
    let about = || format!("{} with {}", describe(first, second), show(raw));
    for tsc in [2, u32::MAX] {
        let (mut guarded, mut values) = (GUARDED, FILLED);
        let number = ffi::compare_depths(
            lent(first, tsc),
            lent(second, tsc),
            raw,
            &mut guarded.blame,
            &mut values.0,
            &mut values.1,
            &mut values.2,
        );
        assert_eq!((number, guarded, values), expected(told.map(given), FILLED), "{}", about());
    }
    let safe = barrowtide::compare_depths(wrapped(first), wrapped(second), raw).map(|strings| {
        let first = match strings.first {
            Cow::Borrowed(_) => None,
            Cow::Owned(bytes) => Some(bytes.try_into().expect("64 bytes")),
        };
        (first, strings.second)
    });
    assert_eq!(safe.map_err(plain), told, "{}", about());
    told
}

/// The same in both orders, which must agree where both proofs are accepted.
fn check_both(first: &Claim, second: &Claim, raw: &[u8]) -> Result<Strings, Refusal> {
    let (told, turned) = (check(first, second, raw), check(second, first, raw));
    assert!(first.climb().is_err() || second.climb().is_err() || told == turned);
    told
}

fn refused<T>(number: u32, carried: u64) -> Result<T, Refusal> {
    Err(Refusal::new(number, carried))
}

/// Transactions of 60, 64 and 65 bytes.
const T60: &str = "01 00 00 00 01 [aa] 00 00 00 00 00 ff{4} 01 e8 03 00{6} 00 00{4}";
const T64: &str = "01 00 00 00 01 [aa] 00 00 00 00 04 51{4} ff{4} 01 e8 03 00{6} 00 00{4}";
const T65: &str = "01 00 00 00 01 [aa] 00 00 00 00 05 51{5} ff{4} 01 e8 03 00{6} 00 00{4}";

#[test]
fn examples() {
    let tsc = |text: &str| Claim::Tsc(expand(text));
    let [t60, t64, t65] = [T60, T64, T65].map(expand);
    let top = join(&[0xaa; 32], &[0xbb; 32]);
    let pair: String = top.iter().map(|byte| format!("{byte:02x}")).collect();
    // The inner node of a tree of two layers, and an id under it.
    let inner = tsc(&format!("00 00 {pair} [ee] 01 00 [cc]"));
    let deep = tsc("00 01 [bb] [ee] 02 00 [aa] 00 [cc]");
    // 23, whichever comes first: the transaction is another.
    assert_eq!(check_both(&inner, &deep, &t60), refused(23, 0));
    // The transaction's refusals come before that, with their places.
    assert_eq!(check_both(&inner, &deep, &[]), refused(2, 0));
    assert_eq!(check_both(&inner, &deep, &t60[..59]), refused(2, 56));
    assert_eq!(check_both(&inner, &deep, &expand("01 00 00 00 00")), refused(11, 4));
    assert_eq!(check_both(&inner, &deep, &expand("01 00 00 00 fd 01 00")), refused(3, 4));
    assert_eq!(check_both(&inner, &deep, &expand(&format!("{T60} 00"))), refused(9, 60));
    assert_eq!(check_both(&inner, &deep, &t64), refused(11, 0));
    assert_eq!(check_both(&inner, &deep, &expand(&format!("{T64} 00"))), refused(11, 0));
    assert_eq!(check_both(&inner, &deep, &t65), refused(23, 0));
    // The proofs' refusals come before that, the first's before the second's.
    assert_eq!(check(&tsc("06"), &tsc("00"), &[]), refused(7, 0));
    assert_eq!(check(&tsc("00"), &tsc("06"), &[]), refused(2, 1));
    assert_eq!(check(&inner, &tsc("06"), &[]), refused(7, 0));
    let twin = tsc("00 03 [aa] [bb] 02 00 [cc] 01");
    assert_eq!(check(&inner, &twin, &t64), Err(Refusal::of_sibling(15, 1, 0)));
    assert_eq!(check(&twin, &tsc("06"), &t64), Err(Refusal::of_sibling(15, 1, 0)));
    // As many layers are 23, though the other call compares them; so are no layers on both sides.
    assert_eq!(check_both(&deep, &deep, &t60), refused(23, 0));
    assert_eq!(compare(&deep, &deep), refused(24, 0));
    let alone = Claim::Tsc([&[4, 0][..], &sha256d(&t60), &sha256d(&t60), &[0]].concat());
    assert_eq!(check_both(&alone, &alone, &t60), refused(23, 0));
    assert_eq!(check_both(&alone, &deep, &t60), refused(23, 0));
    assert_eq!(check_both(&alone, &deep, &t64), refused(11, 0));
}

/// The tree above a layer: what poses as a block whose ids are inner nodes.
fn above(tree: &Tree, layer: usize) -> Tree {
    let count = tree.ids().len().div_ceil(1 << layer) as u64;
    Tree::new((0..count).map(|position| tree.hash(layer, position)).collect())
}

/// A proof in a form of choice; only TSC has no layers.
fn any_claim(random: &mut Random, tree: &Tree, position: u64) -> Claim {
    match tree.height() {
        0 => Claim::Tsc(tsc::Plan::of(tree, position).draft().bytes),
        _ => claim(random, tree, position),
    }
}

/// Two ids of a block that together are 64 bytes with the fields of a transaction: the node above
/// them has its id, and a proof with one layer less. It is refused wherever it is read.
#[test]
fn posing() {
    let mut random = Random::of("posing");
    for _ in 0..rounds() / 4 {
        let plan = Plan::node_sized(&mut random);
        let raw = plan.draft().bytes;
        let count = random.within(2..=20) as usize;
        let mut ids: Vec<Hash> = (0..count).map(|_| random.hash()).collect();
        let place = random.index(count / 2) as u64;
        let left = 2 * place as usize;
        ids[left].copy_from_slice(&raw[..32]);
        ids[left + 1].copy_from_slice(&raw[32..]);
        let tree = Tree::new(ids);
        let upper = above(&tree, 1);
        assert_eq!(upper.ids()[place as usize], plan.id());
        let short = any_claim(&mut random, &upper, place);
        let below = 2 * place + random.within(0..=1);
        let long = claim(&mut random, &tree, below);
        // Both proofs stand, and their places lie one above the other.
        let (one, other) = (short.climb().expect("sound"), long.climb().expect("sound"));
        assert_eq!((one.root(), one.layers.len()), (other.root(), other.layers.len() - 1));
        assert_eq!(check_both(&short, &long, &raw), refused(11, 0));

        let bad_tx = |refusal: barrowtide::Refusal| (refusal.reason, refusal.carried);
        assert_eq!(read_transaction(&raw).map_err(bad_tx), Err((Reason::BadTx, 0)));
        let mut reader = TransactionReader::new();
        assert_eq!(reader.push(&raw[..63]).map_err(bad_tx), Ok(None));
        assert_eq!(reader.push(&raw[63..]).map_err(bad_tx), Err((Reason::BadTx, 0)));
        assert_eq!(barrowtide::order(&raw, 1).map_err(bad_tx), Err((Reason::BadTx, 0)));
        let mut proof = tsc::Plan::of(&upper, place);
        (proof.body, proof.stated) = (plan.draft(), Some(64));
        proof.aim(4, &mut random);
        let told = barrowtide::prove_tsc(&proof.draft().bytes).map_err(bad_tx);
        assert!(matches!(told, Err((Reason::BadTx, 3..=11))), "{told:?}");
        if upper.height() > 0 {
            let bump = path::Plan::of(&upper, &[place]).bump().bytes;
            let head = [&[0x01, 0x00, 0xbe, 0xef, 0x01][..], &bump, &[0x01]].concat();
            let bundle = [&head[..], &raw, &[0x01, 0x00]].concat();
            let roots = [barrowtide::Hash::from_stored(upper.root())];
            let told = barrowtide::judge(&bundle, &roots, 0).map_err(bad_tx);
            assert_eq!(told, Err((Reason::BadTx, head.len() as u64)));
        }
    }
}

/// A payment that a block holds, and a transaction that it does not.
fn block(random: &mut Random, most: u64) -> (Tree, u64, Vec<u8>) {
    let count = random.within(2..=most) as usize;
    let mut ids: Vec<Hash> = (0..count).map(|_| random.hash()).collect();
    let position = random.index(count);
    let mut plan = Plan::random(random);
    if random.one_in(2) {
        let length = random.pick(&[60, 61, 62, 63, 65, 66, 100]);
        plan.shrink(random, length);
    }
    ids[position] = plan.id();
    (Tree::new(ids), position as u64, plan.draft().bytes)
}

/// Sound proofs of one tree or of two, at places that lie one above the other or not, with the
/// payment, another transaction, or one of 64 bytes.
#[test]
fn sound_pairs() {
    let mut random = Random::of("sound depths");
    for _ in 0..rounds() {
        let (tree, position, raw) = block(&mut random, 40);
        let layer = random.within(1..=tree.height() as u64) as usize;
        let upper = above(&tree, layer);
        let place = match random.one_in(4) {
            true => random.index(upper.ids().len()) as u64,
            false => position >> layer,
        };
        let inner = any_claim(&mut random, &upper, place);
        let long = claim(&mut random, &tree, position);
        let other = block(&mut random, 40);
        let elsewhere = claim(&mut random, &other.0, other.1);
        for raw in [&raw, &other.2] {
            assert_eq!(check_both(&inner, &long, raw), refused(23, 0));
            assert_eq!(check_both(&inner, &elsewhere, raw), refused(23, 0));
            assert_eq!(check_both(&long, &elsewhere, raw), refused(23, 0));
            assert_eq!(check_both(&long, &long, raw), refused(23, 0));
        }
        let sized = Plan::node_sized(&mut random).draft().bytes;
        assert_eq!(check_both(&inner, &long, &sized), refused(11, 0));
    }
}

/// Damage to one of the two proofs, to both, and to the transaction.
#[test]
fn damaged_inputs() {
    let mut random = Random::of("damaged depths");
    let mut tally = Tally::default();
    for _ in 0..rounds() {
        let (tree, position, raw) = block(&mut random, 12);
        let upper = above(&tree, 1);
        let place = position / 2;
        let sound = any_claim(&mut random, &upper, place);
        let long = claim(&mut random, &tree, position);
        let spoilt = damaged(&mut random, &tree, position);
        let other = if upper.height() == 0 { tree.clone() } else { upper };
        let place = if other.height() == tree.height() { position } else { place };
        let short = damaged(&mut random, &other, place);
        tally.note(check_both(&sound, &spoilt, &raw));
        tally.note(check_both(&short, &long, &raw));
        tally.note(check_both(&short, &spoilt, &raw));
        let mut plan = Plan::random(&mut random);
        let length = random.within(60..=68) as usize;
        plan.shrink(&mut random, length);
        let edit = random_edit(&mut random, &plan.draft());
        tally.note(check_both(&sound, &long, &edit));
        tally.note(check_both(&sound, &spoilt, &edit));
        tally.note(check_both(&sound, &long, &plan.draft().bytes));
    }
    if rounds() >= 1_000 {
        tally.assert_met(&[2, 3, 4, 5, 6, 7, 8, 9, 11, 13, 14, 15, 16, 23]);
    }
}

/// Every change of one field of small transactions about 64 bytes, and every truncation.
#[test]
fn damaged_fields() {
    let mut random = Random::of("damaged fields with depths");
    let mut tally = Tally::default();
    for length in 60..=68 {
        let (tree, position, _) = block(&mut random, 9);
        let inner = any_claim(&mut random, &above(&tree, 1), position / 2);
        let long = claim(&mut random, &tree, position);
        let mut plan = Plan::random(&mut random);
        plan.shrink(&mut random, length);
        let draft = plan.draft();
        field_edits(&draft).for_each(|edit| tally.note(check_both(&inner, &long, &edit)));
        truncations(&draft.bytes).for_each(|cut| tally.note(check_both(&inner, &long, cut)));
    }
    tally.assert_met(&[2, 3, 9, 11, 23]);
}

/// Trees of up to 64 layers: positions are halved as often as there are layers more.
#[test]
fn tall_proofs() {
    let mut random = Random::of("tall depths");
    for _ in 0..rounds() / 100 {
        let tall = tsc::Plan::grown(&mut random);
        let long = Claim::Tsc(tall.draft().bytes);
        let climb = long.climb().expect("sound");
        for extra in 1..=tall.nodes.len() {
            let mut short = tall.clone();
            short.nodes.drain(..extra);
            short.index = if extra == 64 { 0 } else { tall.index >> extra };
            short.body.bytes = climb.layers[extra - 1].hash.to_vec();
            let short = Claim::Tsc(short.draft().bytes);
            assert_eq!(short.climb().expect("sound").root(), climb.root());
            assert_eq!(check_both(&short, &long, &expand(T60)), refused(23, 0));
        }
    }
}

#[test]
fn sizes() {
    let (sound, longer) = (Claim::Tsc(expand("00 00 [aa] [bb] 00")), vec![0; MAX_INPUT + 1]);
    let short = Claim::Tsc(vec![0]);
    let long = Claim::Bump(longer.clone(), [0; 32]);
    assert_eq!(check(&long, &short, &[]), refused(1, 0));
    assert_eq!(check(&short, &long, &longer), refused(2, 1));
    assert_eq!(check(&sound, &long, &[]), refused(1, 0));
    assert_eq!(check(&sound, &sound, &longer), refused(1, 0));
    // The greatest transaction is read and hashed.
    let mut plan = Plan::random(&mut Random::of("sizes"));
    plan.inputs.truncate(1);
    plan.outputs = vec![(1, vec![0x51; 1 << 20])];
    let rest = MAX_INPUT - plan.draft().bytes.len();
    plan.outputs[0].1.resize((1 << 20) + rest, 0x51);
    assert_eq!(plan.draft().bytes.len(), MAX_INPUT);
    assert_eq!(check(&sound, &sound, &plan.draft().bytes), refused(23, 0));
}
