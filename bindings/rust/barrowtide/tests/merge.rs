//! Two BUMPs merged: the library against the reference, lent bytes and list included.

mod common;

use std::collections::{BTreeMap, BTreeSet};

use barrowtide::ffi::{self, Room};
use barrowtide::{LeafList, Merged, MergedBump, Reason, MAX_INPUT, MERGE_EXTRA};
use common::{expected, plain, FILL, GUARDED};
use reference::bump;
use reference::generate::damage::{field_edits, random_edit, truncations};
use reference::generate::path::{Leaf, Plan};
use reference::generate::random::{rounds, Random};
use reference::generate::tally::Tally;
use reference::generate::tree::Tree;
use reference::hex::{encode, expand, show};
use reference::leaves;
use reference::merge::{self, merge};
use reference::path::Node;
use reference::prove::all_clients;
use reference::refusal::Refusal;
use reference::sha256::join;
use reference::Hash;

type Answer = Result<merge::Merged, Refusal>;

/// What every lent byte holds before a call.
const PRESET: u8 = 0xa5;

/// Compares the answer, and all lent bytes and numbers with those beside them.
fn check_room(first: &[u8], second: &[u8], bytes_room: usize, numbers: usize) -> Answer {
    let told = merge(first, second, bytes_room, numbers / 3);
    let sizes = told.as_ref().map(|merged| (merged.bytes.len() as u64, merged.list.len() as u64));
    let sizes = sizes.map_err(|refusal| *refusal);
    let before: (Vec<u8>, Vec<u64>) = (
        (0..bytes_room + 2).map(|place| PRESET ^ place as u8).collect(),
        (0..numbers as u64 + 2).map(|place| FILL ^ place).collect(),
    );
    let mut left = before.clone();
    if let Ok(merge::Merged { bytes, list }) = &told {
        left.0[1..=bytes.len()].copy_from_slice(bytes);
        left.1[1..=3 * list.len()].copy_from_slice(list.as_flattened());
    }
    let describe = || {
        let (one, other) = (show(first), show(second));
        format!("{one} and {other}; room for {bytes_room} bytes and {numbers} numbers")
    };

    // What is lent is the middle of something longer.
    let (mut guarded, mut values, mut lent) = (GUARDED, (FILL, FILL), before.clone());
    let room = Room { bytes: &mut lent.0[1..=bytes_room], list: &mut lent.1[1..=numbers] };
    let number = ffi::merge(first, second, room, &mut guarded.blame, &mut values.0, &mut values.1);
    assert_eq!((number, guarded, values), expected(sizes, (FILL, FILL)), "{}", describe());
    assert!(lent == left, "{}", describe());

    let mut lent = before;
    let (bytes, list) = (&mut lent.0[1..=bytes_room], &mut lent.1[1..=numbers]);
    let safe = barrowtide::merge_into(first, second, bytes, list);
    let safe = safe.map(|Merged { written, leaves }| (written as u64, leaves as u64));
    assert_eq!(safe.map_err(plain), sizes, "{}", describe());
    assert!(lent == left, "{}", describe());
    told
}

/// Compares the answers for rooms that are enough or short, and what must hold of a merged path.
fn check(first: &[u8], second: &[u8]) -> Answer {
    let told = merge(first, second, usize::MAX, usize::MAX);
    let safe = LeafList::merge(first, second).map_err(plain);
    let wrapped = |MergedBump { bump, leaves }: MergedBump| (bump, leaves.as_numbers().to_vec());
    let whole = |merged: merge::Merged| (merged.bytes, merged.list.concat());
    assert_eq!(safe.map(wrapped), told.clone().map(whole), "{} and {}", show(first), show(second));
    let needed = told.as_ref().map_or((9, 3), |merged| (merged.bytes.len(), merged.list.len()));
    for (bytes, leaves) in [(0, 0), (9, 5)] {
        let (bytes, numbers) = (needed.0 + bytes, 3 * needed.1 + leaves);
        assert_eq!(check_room(first, second, bytes, numbers), told);
    }
    let short = told.as_ref().map_or_else(|refusal| *refusal, |_| Refusal::new(22, 0));
    for (bytes, numbers) in
        [(needed.0 - 1, 3 * needed.1), (needed.0, 3 * needed.1 - 1), (0, 0), (0, 999)]
    {
        assert_eq!(check_room(first, second, bytes, numbers), Err(short));
    }
    if let Ok(merged) = &told {
        assert!(merged.bytes.len() <= first.len() + second.len() + MERGE_EXTRA);
        assert_eq!(all_clients(&merged.bytes), all_clients(first));
        assert_eq!(leaves::build(&merged.bytes, usize::MAX).as_ref(), Ok(&merged.list));
        // Either way round, and with either of the two once more, it is the same.
        for (one, other) in [(second, first), (&merged.bytes, second), (first, &merged.bytes)] {
            assert_eq!(merge(one, other, usize::MAX, usize::MAX), told);
        }
    }
    told
}

/// What a merge shows.
#[derive(Debug, Clone, Copy, PartialEq, Eq, PartialOrd, Ord)]
enum Met {
    /// A leaf of the first only, or of the second only, is kept.
    InFirst,
    InSecond,
    /// Equal leaves of both; a client's beside a plain one, in the first and in the second; copies.
    Same,
    ClientInFirst,
    ClientInSecond,
    Copies,
    /// A hash beside a copy is kept, in the first and in the second, written on the left of the copy
    /// or of the hash.
    HashInFirst,
    HashInSecond,
    OnCopysLeft,
    OnHashsLeft,
    /// 16: two hashes; a hash and a copy; no such two, but the merged path's check.
    TwoHashes,
    HashAndCopy,
    ByCheck,
}

const ALL: [Met; 13] = [
    Met::InFirst,
    Met::InSecond,
    Met::Same,
    Met::ClientInFirst,
    Met::ClientInSecond,
    Met::Copies,
    Met::HashInFirst,
    Met::HashInSecond,
    Met::OnCopysLeft,
    Met::OnHashsLeft,
    Met::TwoHashes,
    Met::HashAndCopy,
    Met::ByCheck,
];

/// Which of them were met.
#[derive(Debug, Default)]
struct Seen(BTreeSet<Met>);

impl Seen {
    /// Notes what the merge of two well-formed paths with clients shows.
    fn see(&mut self, first: &[u8], second: &[u8], answer: &Answer) {
        let contradicted = match answer {
            Ok(_) => false,
            Err(refusal) if refusal.number == 16 => true,
            Err(_) => return,
        };
        if all_clients(first).is_err() || all_clients(second).is_err() {
            return;
        }
        let (one, other) = (by_place(first), by_place(second));
        let met: BTreeSet<Met> = one
            .keys()
            .chain(other.keys())
            .flat_map(|place| shown(&one, &other, *place, contradicted))
            .collect();
        self.0.extend(if contradicted && met.is_empty() { [Met::ByCheck].into() } else { met });
    }

    fn assert_all(&self) {
        for met in ALL {
            assert!(self.0.contains(&met), "{met:?} was not met; met were {:?}", self.0);
        }
    }
}

type Leaves = BTreeMap<(usize, u64), Node>;

fn by_place(data: &[u8]) -> Leaves {
    let path = bump::read(data).expect("a well-formed path").path;
    let levels = path.levels.iter().enumerate();
    let leaves = levels.flat_map(|(level, leaves)| leaves.iter().map(move |leaf| (level, leaf)));
    leaves.map(|(level, leaf)| ((level, leaf.offset), leaf.node)).collect()
}

/// What a place shows: of an accepted merge what is kept, of a contradiction whether it is there.
fn shown(one: &Leaves, other: &Leaves, place: (usize, u64), contradicted: bool) -> Vec<Met> {
    let left = |leaves: &Leaves, hash: &Hash| {
        let left = place.1.checked_sub(1).and_then(|offset| leaves.get(&(place.0, offset)));
        left.and_then(Node::hash) == Some(hash)
    };
    let beside_copy = |with_copy: &Leaves, with_hash: &Leaves, hash: &Hash, kept: Met| match (
        left(with_copy, hash),
        left(with_hash, hash),
        contradicted,
    ) {
        (false, false, true) => vec![Met::HashAndCopy],
        (_, _, true) => vec![],
        (true, false, false) => vec![kept, Met::OnCopysLeft],
        (false, true, false) => vec![kept, Met::OnHashsLeft],
        _ => vec![kept],
    };
    match (one.get(&place), other.get(&place)) {
        (Some(Node::Copy), Some(Node::Plain(hash) | Node::Client(hash))) => {
            beside_copy(one, other, hash, Met::HashInSecond)
        }
        (Some(Node::Plain(hash) | Node::Client(hash)), Some(Node::Copy)) => {
            beside_copy(other, one, hash, Met::HashInFirst)
        }
        (Some(a), Some(b)) if contradicted && a.hash() != b.hash() => vec![Met::TwoHashes],
        _ if contradicted => vec![],
        (Some(_), None) => vec![Met::InFirst],
        (None, _) => vec![Met::InSecond],
        (Some(Node::Copy), _) => vec![Met::Copies],
        (Some(Node::Client(_)), Some(Node::Plain(_))) => vec![Met::ClientInFirst],
        (Some(Node::Plain(_)), Some(Node::Client(_))) => vec![Met::ClientInSecond],
        _ => vec![Met::Same],
    }
}

/// An example with `J(aa,ab)` for the join of two nodes.
fn joined(example: &str) -> Vec<u8> {
    let mut text = example.to_string();
    while let Some((before, rest)) = text.split_once("J(") {
        let (pair, after) = rest.split_once(')').expect("the end of a pair");
        let nodes: Vec<Hash> = pair.split(',').map(|byte| [expand(byte)[0]; 32]).collect();
        text = format!("{before}{}{after}", encode(&join(&nodes[0], &nodes[1])));
    }
    expand(&text)
}

#[test]
fn examples() {
    let merged = |first: &str, second: &str| {
        check(&joined(first), &joined(second)).map(|merged| merged.bytes)
    };
    let no = |number| Err(Refusal::new(number, 0));
    let pair = "01 01 02 00 02 [aa] 01 00 [ab]";
    let turned = "01 01 02 01 02 [ab] 00 00 [aa]";
    assert_eq!(merged(pair, turned), Ok(expand("01 01 02 00 02 [aa] 01 02 [ab]")));
    assert_eq!(merged(pair, pair), Ok(expand(pair)));
    // 23: block heights, roots, and tree heights, where an inner node is a client.
    assert_eq!(merged(pair, "02 01 02 00 02 [aa] 01 00 [ab]"), no(23));
    assert_eq!(merged(pair, "01 01 02 00 02 [aa] 01 00 [ac]"), no(23));
    let upper = "01 01 02 00 02 J(aa,ab) 01 00 J(ac,ad)";
    let lower = "01 02 02 00 02 [aa] 01 00 [ab] 01 01 00 J(ac,ad)";
    assert_eq!(merged(upper, lower), no(23));
    // A copy and a hash: its left neighbour is written in the first, in the second, in neither.
    let copied = "01 02 02 02 02 [ac] 03 01 01 00 00 J(aa,ab)";
    let written = "01 02 03 00 02 [aa] 01 00 [ab] 03 00 [ac] 01 01 00 J(ac,ac)";
    let both = "01 02 04 00 02 [aa] 01 00 [ab] 02 02 [ac] 03 00 [ac] \
                02 00 00 J(aa,ab) 01 00 J(ac,ac)";
    assert_eq!(merged(copied, written), Ok(joined(both)));
    let alone = "01 02 03 00 02 [aa] 01 00 [ab] 03 01 01 01 00 J(ac,ac)";
    assert_eq!(merged(alone, written), no(16));
    assert_eq!(merged(alone, both), Ok(joined(both)));
    assert_eq!(merged(alone, copied).map(|bytes| bytes.len()), Ok(joined(both).len() - 32));
    // The left neighbour has another hash.
    let other = "01 02 04 00 02 [aa] 01 00 [ab] 02 00 [0c] 03 01 01 01 00 J(ac,ac)";
    assert_eq!(merged(other, written), no(16));
    // One place with two hashes, in leaves that neither asks for.
    let surplus = |hash: &str| format!("01 02 03 00 02 [aa] 01 00 [ab] 02 00 {hash} 01 01 00 [0d]");
    assert_eq!(merged(&surplus("[0a]"), &surplus("[0b]")), no(16));
    // The first works (1, 1) out, and the second has something else there.
    let worked = "01 02 04 00 02 [aa] 01 00 [ab] 02 00 [ac] 03 00 [ad] 00";
    let wrong = "01 02 02 02 02 [ac] 03 00 [ad] 02 00 00 J(aa,ab) 01 00 [0b]";
    assert_eq!(merged(worked, wrong), no(16));
    assert_eq!(merged(wrong, worked), no(16));
}

/// The first's reading and check, then the second's, then the others.
#[test]
fn order_of_refusals() {
    let told = |first: &str, second: &str| check(&joined(first), &joined(second)).err();
    let no = |number, carried| Some(Refusal::new(number, carried));
    let pair = "01 01 02 00 02 [aa] 01 00 [ab]";
    let nobody = "01 01 02 00 00 [aa] 01 00 [ab]";
    let missing = "01 02 02 00 02 [aa] 01 00 [ab] 00";
    let gap = Some(Refusal::of_sibling(14, 1, 1));
    let twin = "01 02 02 02 00 [ab] 03 02 [aa] 01 00 00 J(ab,aa)";
    let differing = "01 02 04 00 02 [aa] 01 00 [ab] 02 02 [ac] 03 00 [ad] \
                     02 00 00 [0a] 01 00 [0b]";
    assert_eq!(told("00", "01 00"), no(2, 1));
    assert_eq!(told(nobody, "00"), no(13, 0));
    assert_eq!(told(missing, "00"), gap);
    assert_eq!(told(twin, missing), Some(Refusal::of_sibling(15, 1, 0)));
    assert_eq!(told(differing, "00"), no(16, 0));
    assert_eq!(told(pair, "00"), no(2, 1));
    assert_eq!(told(pair, nobody), no(13, 0));
    assert_eq!(told(pair, missing), gap);
    assert_eq!(told(pair, differing), no(16, 0));
    let longer = vec![0; MAX_INPUT + 1];
    assert_eq!(check(&longer, &longer).err(), no(1, 0));
    assert_eq!(check(&expand(pair), &longer).err(), no(1, 0));
}

/// A merged level of 1,024 leaves and one of 1,025; 5 comes before 16 and after 23.
#[test]
fn full_levels() {
    let mut random = Random::of("full_levels");
    let tree = Tree::random(&mut random, 2_048);
    let of = |positions: std::ops::Range<u64>| Plan::of(&tree, &positions.collect::<Vec<_>>());
    let first = of(0..600);
    let merged = |second: &Plan| check(&first.bump().bytes, &second.bump().bytes);
    assert_eq!(merged(&of(600..1_024)).map(|merged| merged.bytes), Ok(of(0..1_024).bump().bytes));
    assert_eq!(merged(&of(601..1_025)).err(), Refusal::new(5, 0).into());
    let mut second = of(601..1_025);
    second.levels[0].push(Leaf { offset: 3, flags: 0, hash: [7; 32] });
    assert_eq!(merged(&second).err(), Refusal::new(5, 0).into());
    second.block_height += 1;
    assert_eq!(merged(&second).err(), Refusal::new(23, 0).into());

    // It blames no byte; a count over the limit in one of the two does.
    let told = |second: &[u8]| LeafList::merge(&first.bump().bytes, second).unwrap_err();
    let level = told(&of(601..1_025).bump().bytes);
    assert_eq!((level.reason, level.to_string().contains(" at ")), (Reason::OverLimit, false));
    assert!(told(&[0xff; 9]).to_string().starts_with("refused 5 at 0: "));
}

/// Every change of one field and every truncation of a path, beside another of its block.
#[test]
fn damaged_fields() {
    let mut random = Random::of("damaged_fields");
    let mut tally = Tally::default();
    for count in [2, 3, 7] {
        let tree = Tree::random(&mut random, count);
        let (one, other) = (Plan::whole(&tree), Plan::of(&tree, &[count as u64 - 1, 1]));
        let (draft, beside) = (Plan { block_height: 814_435, ..one }.bump(), other.bump().bytes);
        let mut compare = |edit: &[u8]| {
            tally.note(check(edit, &beside));
            tally.note(check(&beside, edit));
        };
        field_edits(&draft).for_each(|edit| compare(&edit));
        truncations(&draft.bytes).for_each(&mut compare);
    }
    tally.assert_met(&[0, 2, 3, 4, 5, 6, 7, 8, 9, 16, 23]);
}

/// Every two paths of two levels over one tree of four ids, of which the last is the third once
/// more: each place is left out, written or, where it may be, a copy.
#[test]
fn every_two_paths_of_a_tree() {
    let ids = [0xa0, 0xa1, 0xa2].map(|byte| [byte; 32]);
    let tree = Tree::new(ids.to_vec());
    let mut tally = Tally::default();
    let paths: Vec<Vec<u8>> = (0..3 * 2 * 2 * 3 * 2 * 2)
        .map(|number| path_of(&tree, number))
        .filter(|bytes| all_clients(bytes).is_ok())
        .collect();
    for first in &paths {
        for second in &paths {
            tally.note(check(first, second));
        }
    }
    tally.assert_met(&[0, 16]);
}

/// The path of a number: the first id left out, plain or a client, the others left out or written,
/// the copy left out, a copy or its hash; the third id is a client if the first is none.
fn path_of(tree: &Tree, mut number: usize) -> Vec<u8> {
    let mut choose = |choices| {
        let choice = number % choices;
        number /= choices;
        choice
    };
    let mut levels = vec![Vec::new(); 2];
    let leaf = |level: usize, offset: u64, flags: u8| Leaf {
        offset,
        flags,
        hash: tree.hash(level, offset),
    };
    let first = choose(3);
    let chosen = [choose(2), choose(2), choose(3), choose(2), choose(2)];
    if first > 0 {
        levels[0].push(leaf(0, 0, if first == 2 { 2 } else { 0 }));
    }
    if chosen[0] > 0 {
        levels[0].push(leaf(0, 1, 0));
    }
    if chosen[1] > 0 {
        levels[0].push(leaf(0, 2, if first == 2 { 0 } else { 2 }));
    }
    if chosen[2] > 0 {
        levels[0].push(leaf(0, 3, chosen[2] as u8 - 1));
    }
    for (offset, written) in [(1, chosen[3]), (0, chosen[4])] {
        if written > 0 {
            levels[1].push(leaf(1, offset, 0));
        }
    }
    Plan { block_height: 7, levels }.bump().bytes
}

/// Two paths of one block, with overlaps, surplus leaves, inner nodes left out, copies written out,
/// and changes by which they contradict each other or themselves.
#[test]
fn random_pairs() {
    let mut random = Random::of("random_pairs");
    let (mut seen, mut tally) = (Seen::default(), Tally::default());
    for _ in 0..rounds() {
        let count = random.within(2..=24) as usize;
        let tree = Tree::random(&mut random, count);
        let mut plans = [path(&mut random, &tree), path(&mut random, &tree)];
        for _ in 0..random.within(0..=2) {
            change(&mut random, &tree, &mut plans);
        }
        let mut bytes = plans.each_ref().map(|plan| plan.bump().bytes);
        if random.one_in(12) {
            let which = random.index(2);
            bytes[which] = random_edit(&mut random, &plans[which].bump());
        }
        let answer = check(&bytes[0], &bytes[1]);
        seen.see(&bytes[0], &bytes[1], &answer);
        tally.note(answer);
    }
    if rounds() >= 1_000 {
        tally.assert_met(&[0, 2, 6, 7, 8, 13, 14, 15, 16, 23]);
        seen.assert_all();
    }
}

/// A path of a tree of up to 24 ids, in one of the many ways to write it.
fn path(random: &mut Random, tree: &Tree) -> Plan {
    let count = tree.ids().len() as u64;
    let positions: Vec<u64> =
        (0..random.within(1..=4)).map(|_| random.within(0..=count - 1)).collect();
    let mut plan = if random.one_in(4) { Plan::whole(tree) } else { Plan::of(tree, &positions) };
    plan.thin(random, tree);
    if random.one_in(2) {
        plan.vary(random, tree);
    }
    // The last copy of a level may be written out, and the node on its left left out.
    for (level, leaves) in plan.levels.iter_mut().enumerate() {
        for leaf in leaves.iter_mut().filter(|leaf| leaf.flags == 1) {
            if random.one_in(2) {
                (leaf.flags, leaf.hash) = (0, tree.hash(level, leaf.offset));
            }
        }
        if random.one_in(2) {
            random.shuffle(leaves);
        }
    }
    plan.block_height = 814_435;
    plan
}

/// A change of one of two paths.
fn change(random: &mut Random, tree: &Tree, plans: &mut [Plan; 2]) {
    let other = plans[random.index(2)].clone();
    let plan = &mut plans[random.index(2)];
    let level = random.index(plan.levels.len().max(1));
    match random.within(0..=7) {
        0 => plan.spoil(random),
        1 => plan.unsettle(random),
        2 => plan.block_height = random.pick(&[0, 814_434]),
        3 => {
            let ids = [tree.ids(), &[random.hash()]].concat();
            *plan = path(random, &Tree::new(ids));
        }
        // A leaf of the other, or another hash where the other has one.
        4 | 5 if level < plan.levels.len() && level < other.levels.len() => {
            let Some(mut leaf) = other.levels[level].first().copied() else { return };
            if random.one_in(2) {
                leaf.hash = random.hash();
            }
            plan.levels[level].retain(|own| own.offset != leaf.offset);
            plan.levels[level].push(leaf);
        }
        // A copy at any odd offset that has no leaf.
        6 if level < plan.levels.len() => {
            let above = plan.levels.len() - level;
            let offset = random.bits() >> (64 - above) | 1;
            if plan.leaf(level, offset).is_none() {
                plan.levels[level].push(Leaf { offset, flags: 1, hash: [0; 32] });
            }
        }
        _ => plan.levels.iter_mut().for_each(|leaves| random.shuffle(leaves)),
    }
}

/// Many leaves in any order, of one block of up to 1,024 ids.
#[test]
fn large_paths() {
    let mut random = Random::of("large_paths");
    for _ in 0..(4 + rounds() / 500) {
        let count = random.within(100..=1_024) as usize;
        let tree = Tree::random(&mut random, count);
        let plans = [0, 1].map(|_| {
            let mut plan = Plan::whole(&tree);
            let written = random.pick(&[2, 3, 9]);
            // Copies stay, as nothing lies below them.
            for level in &mut plan.levels[1..] {
                level.retain(|leaf| leaf.flags == 1 || !random.one_in(written));
            }
            for leaf in plan.levels[0].iter_mut().filter(|leaf| leaf.flags == 2) {
                leaf.flags = if random.one_in(20) { 2 } else { 0 };
            }
            plan.levels[0][0].flags = 2;
            plan.levels.iter_mut().for_each(|level| random.shuffle(level));
            plan.bump().bytes
        });
        assert!(check(&plans[0], &plans[1]).is_ok());
    }
}

/// Paths of 64 layers: copies through all of them, and grown ones of one client.
#[test]
fn tall_paths() {
    let mut random = Random::of("tall_paths");
    let copies = Plan::copies([0xaa; 32]);
    let bytes = copies.bump().bytes;
    assert!(check(&bytes, &bytes).is_ok());
    // One of the two has its copies written out where the left neighbour is written: at level 0.
    let mut written = copies.clone();
    for leaf in written.levels[0].iter_mut().filter(|leaf| leaf.flags == 1) {
        let hash = if leaf.offset == 1 { [0xbb; 32] } else { [0xaa; 32] };
        (leaf.flags, leaf.hash) = (0, hash);
    }
    let other = written.bump().bytes;
    assert_eq!(check(&bytes, &other), check(&other, &other));
    written.levels[63].push(Leaf { offset: 0, flags: 0, hash: [0x0c; 32] });
    assert_eq!(check(&bytes, &written.bump().bytes).map(|_| ()), Err(Refusal::new(23, 0)));
    for _ in 0..rounds() / 50 {
        let id = random.hash();
        let first = Plan::grown(&mut random, id);
        let mut second = first.clone();
        second.levels.iter_mut().for_each(|level| random.shuffle(level));
        if random.one_in(2) {
            second.unsettle(&mut random);
        }
        let _ = check(&first.bump().bytes, &second.bump().bytes);
    }
}
