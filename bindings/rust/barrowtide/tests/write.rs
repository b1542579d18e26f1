//! Writing the BUMP of a block's ids: the library against the reference, lent room included, and
//! what is written read back.

mod common;

use std::collections::BTreeSet;

use barrowtide::{check_clients, ffi, prove_bump, read_bump, Hash, Proof, WRITE_ROOM};
use common::{expected, plain, FILL, GUARDED};
use reference::generate::list::Plan;
use reference::generate::random::{rounds, Random};
use reference::generate::tally::Tally;
use reference::hex::{encode, expand, show};
use reference::refusal::Refusal;
use reference::sha256::join;
use reference::write::write_bump;

type Answer = Result<Vec<u8>, Refusal>;

/// Compares the answer, and every byte of a room of this size.
fn check_room(plan: &Plan, room: usize) -> Answer {
    let Plan { block_height, ids, positions } = plan;
    let told = write_bump(*block_height, ids, positions, room);
    let length = told.as_ref().map(Vec::len).map_err(|refusal| *refusal);
    let before: Vec<u8> = (0..room).map(|place| place as u8 ^ 0xa5).collect();
    let mut left = before.clone();
    if let Ok(bytes) = &told {
        left[..bytes.len()].copy_from_slice(bytes);
    }
    let describe =
        || format!("block {block_height}; {}; positions {positions:?}; room {room}", show(ids));

    let (mut guarded, mut written, mut out) = (GUARDED, FILL, before.clone());
    let number =
        ffi::write_bump(*block_height, ids, positions, &mut out, &mut guarded.blame, &mut written);
    let length_told = length.map(|length| length as u64);
    assert_eq!((number, guarded, written), expected(length_told, FILL), "{}", describe());
    assert!(out == left, "{}; left {}", describe(), show(&out));

    let mut out = before;
    let safe = barrowtide::write_bump_into(*block_height, ids, positions, &mut out);
    assert_eq!(safe.map_err(plain), length, "{}", describe());
    assert!(out == left, "{}; left {}", describe(), show(&out));
    told
}

/// The call without lent room; where ids are not whole, the one that can be lent such bytes.
fn whole_or_lent(
    block_height: u64,
    ids: &[u8],
    positions: &[u64],
) -> Result<Vec<u8>, barrowtide::Refusal> {
    let whole = ids.chunks_exact(32);
    if !whole.remainder().is_empty() {
        let mut out = vec![0; WRITE_ROOM];
        let written = barrowtide::write_bump_into(block_height, ids, positions, &mut out)?;
        return Ok(out[..written].to_vec());
    }
    let hash = |id: &[u8]| Hash::from_stored(id.try_into().expect("32 bytes"));
    let ids: Vec<Hash> = whole.map(hash).collect();
    barrowtide::write_bump(block_height, &ids, positions)
}

/// Compares the answers for rooms that are enough or short, and reads back what is written.
fn check(plan: &Plan) -> Answer {
    let Plan { block_height, ids, positions } = plan;
    let safe = whole_or_lent(*block_height, ids, positions).map_err(plain);
    let needed = safe.as_ref().map_or(100, Vec::len);
    let short = safe.as_ref().map_or_else(|refusal| *refusal, |_| refusal(22));
    for room in [0, needed - 1] {
        assert_eq!(check_room(plan, room), Err(short));
    }
    for room in [needed, needed + 33] {
        assert_eq!(check_room(plan, room), safe);
    }
    if let Ok(bytes) = &safe {
        read_back(plan, bytes);
    }
    safe
}

/// Each chosen id is proved at its position to the list's root; of many, some.
fn read_back(plan: &Plan, bytes: &[u8]) {
    let tree = plan.tree();
    let (layers, root) = (tree.height() as u64, Hash::from_stored(tree.root()));
    let bump = read_bump(bytes).expect("a well-formed BUMP");
    assert_eq!((bump.block_height, bump.tree_height), (plan.block_height, layers));
    let chosen: BTreeSet<u64> = plan.positions.iter().copied().collect();
    if chosen.len() <= 64 {
        assert_eq!(check_clients(bytes), Ok(root), "{}", show(bytes));
    }
    for &position in chosen.iter().step_by(1 + chosen.len() / 64) {
        let id = Hash::from_stored(tree.ids()[position as usize]);
        let proof = Proof { id, position, layers, root };
        assert_eq!(prove_bump(bytes, &id), Ok(proof), "{}", show(bytes));
    }
}

/// A refusal of the call carries 0.
fn refusal(number: u32) -> Refusal {
    Refusal::new(number, 0)
}

fn refused(number: u32) -> Answer {
    Err(refusal(number))
}

#[test]
fn examples() {
    let write = |block_height, ids: &str, positions: &[u64], room| {
        let plan = Plan { block_height, ids: expand(ids), positions: positions.to_vec() };
        check_room(&plan, room)
    };
    let bump = |example: &str| Ok(expand(example));
    // 5 for the block height, the list's size, and a part of an id; then 13, 6, 19 and 22.
    assert_eq!(write(1 << 32, "", &[], 0), refused(5));
    assert_eq!(write(1, "[aa]", &[0], 999), refused(5));
    assert_eq!(write(1, "[aa] [aa] 00", &[], 0), refused(5));
    assert_eq!(write(1, "[aa] [aa]", &[], 0), refused(13));
    assert_eq!(write(1, "[aa] [aa]", &[1, 2], 0), refused(6));
    assert_eq!(write(1, "[aa] [aa]", &[1], 0), refused(19));
    assert_eq!(write(1, "[aa] [bb]", &[1], 70), refused(22));
    // A position named twice; a sibling that is chosen, too.
    assert_eq!(write(1, "[aa] [bb]", &[1, 1], 71), bump("01 01 02 00 00 [aa] 01 02 [bb]"));
    assert_eq!(write(1, "[aa] [bb]", &[1, 0], 71), bump("01 01 02 00 02 [aa] 01 02 [bb]"));
    // A copy, where a chosen climb needs it; its parent is a node like others.
    let left = encode(&join(&[0xaa; 32], &[0xbb; 32]));
    let right = encode(&join(&[0xcc; 32], &[0xcc; 32]));
    let copied = format!("00 02 02 02 02 [cc] 03 01 01 00 00 {left}");
    assert_eq!(write(0, "[aa] [bb] [cc]", &[2], 999), bump(&copied));
    let beside = format!("00 02 02 00 02 [aa] 01 00 [bb] 01 01 00 {right}");
    assert_eq!(write(0, "[aa] [bb] [cc]", &[0], 999), bump(&beside));
    // A sibling under which a chosen position lies is left out.
    let both = "00 02 04 00 02 [aa] 01 00 [bb] 02 02 [cc] 03 01 00";
    assert_eq!(write(0, "[aa] [bb] [cc]", &[0, 2], 999), bump(both));
}

/// Every set of positions of every small list.
#[test]
fn every_set_of_small_lists() {
    let mut random = Random::of("every_set_of_small_lists");
    for count in 2..=9 {
        for set in 1..1u64 << count {
            let chosen = (0..count).filter(|position| set >> position & 1 == 1).collect();
            let plan = Plan::new(&mut random, count as usize, chosen);
            assert!(check(&plan).is_ok());
        }
    }
}

/// Lists of every size, within the limits and past them.
#[test]
fn sizes() {
    let mut random = Random::of("sizes");
    for count in (0..=70).chain([127, 128, 129, 255, 257, 513, 1_023, 1_024, 1_025, 2_000]) {
        let last = (count as u64).saturating_sub(1);
        for positions in [vec![0], vec![last], vec![last, 0, last], (0..=last).collect()] {
            let mut plan = Plan::new(&mut random, count, positions);
            let sound = (2..=1_024).contains(&count);
            assert_eq!(check(&plan).err(), (!sound).then_some(refusal(5)));
            plan.ids.push(0);
            assert_eq!(check(&plan), refused(5));
        }
    }
    // The longest of all.
    let mut longest = Plan::new(&mut random, 1_024, (0..1_024).collect());
    longest.block_height = u64::from(u32::MAX);
    assert!(check(&longest).expect("a sound list").len() <= WRITE_ROOM);
    // More positions than ids.
    let many = (0..5_000).map(|n| n % 7).collect();
    assert!(check(&Plan::new(&mut random, 7, many)).is_ok());
}

/// Block heights at the edges of the VarInt's widths and of 32 bits.
#[test]
fn block_heights() {
    let mut random = Random::of("block_heights");
    let mut plan = Plan::new(&mut random, 3, vec![1]);
    for edge in [0u64, 0xfd, 1 << 16, 1 << 32] {
        for height in [edge.wrapping_sub(1), edge, edge.wrapping_add(1)] {
            plan.block_height = height;
            assert_eq!(check(&plan).is_ok(), height < 1 << 32);
        }
    }
}

/// Rooms of every size.
#[test]
fn rooms() {
    let mut random = Random::of("rooms");
    for count in [2, 3, 7, 8] {
        let plan = Plan::new(&mut random, count, vec![1, 0]);
        let needed = check(&plan).expect("a sound list").len();
        for room in 0..needed + 40 {
            let answer = check_room(&plan, room);
            assert_eq!(answer.err(), (room < needed).then_some(refusal(22)));
        }
    }
}

/// Of several faults at once the first in 02's order is told.
#[test]
fn order_of_refusals() {
    let mut random = Random::of("order_of_refusals");
    let sound = Plan::new(&mut random, 5, vec![4, 2]);
    for faults in 0..1u32 << 6 {
        let has = |fault: u32| faults >> fault & 1 == 1;
        let mut plan = sound.clone();
        let mut number = 0;
        let room = if has(0) { 9 } else { 999 };
        if has(0) {
            number = 22;
        }
        if has(1) {
            plan.ids.copy_within(..32, 96);
            number = 19;
        }
        if has(2) {
            plan.positions.push(5);
            number = 6;
        }
        if has(3) {
            plan.positions.clear();
            number = 13;
        }
        if has(4) {
            plan.ids.push(0);
            number = 5;
        }
        if has(5) {
            plan.block_height = 1 << 32;
            number = 5;
        }
        let answer = check_room(&plan, room);
        assert_eq!(answer.map_or_else(|refusal| refusal.number, |_| 0), number);
    }
}

/// Sound lists, and lists with one fault or two.
#[test]
fn random_lists() {
    let mut random = Random::of("random_lists");
    let mut tally = Tally::default();
    for _ in 0..rounds() {
        let mut plan = Plan::random(&mut random);
        for _ in 0..random.within(0..=2) {
            plan.spoil(&mut random);
        }
        tally.note(check(&plan));
    }
    if rounds() >= 1_000 {
        tally.assert_met(&[0, 5, 6, 13, 19]);
    }
}
