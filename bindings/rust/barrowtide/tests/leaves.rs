//! A list of leaves beside a BUMP: the library against the reference, the lent list included.

mod common;

use std::collections::BTreeMap;

use barrowtide::{bump_leaves, ffi, search_leaves, BumpLeaf, LeafKind, LeafList, ListedLeaf};
use barrowtide::{MAX_INPUT, MAX_LISTED};
use common::{expected, plain, FILL, GUARDED};
use reference::generate::damage::{field_edits, random_edit, truncations};
use reference::generate::path::{Leaf, Plan};
use reference::generate::random::{rounds, Random};
use reference::generate::tally::Tally;
use reference::generate::tree::Tree;
use reference::hex::{expand, show};
use reference::leaves::{build, search, Row};
use reference::path::Node;
use reference::refusal::Refusal;

type List = Result<Vec<Row>, Refusal>;

/// Compares the answer, and every number of a list of so many numbers and of the two beside it.
fn check_room(data: &[u8], numbers: usize) -> List {
    let told = build(data, numbers / 3);
    let count = told.as_ref().map(|list| list.len() as u64).map_err(|refusal| *refusal);
    let before: Vec<u64> = (0..numbers as u64 + 2).map(|place| FILL ^ place).collect();
    let mut left = before.clone();
    if let Ok(list) = &told {
        left[1..=3 * list.len()].copy_from_slice(list.as_flattened());
    }
    let describe = || format!("{}; {numbers} numbers", show(data));

    // The list lent is the middle of a longer one.
    let (mut guarded, mut leaves, mut list) = (GUARDED, FILL, before.clone());
    let lent = &mut list[1..=numbers];
    let number = ffi::list_leaves(data, lent, &mut guarded.blame, &mut leaves);
    assert_eq!((number, guarded, leaves), expected(count, FILL), "{}", describe());
    assert!(list == left, "{}", describe());

    let mut list = before;
    let safe = barrowtide::list_leaves_into(data, &mut list[1..=numbers]);
    assert_eq!(safe.map(|count| count as u64).map_err(plain), count, "{}", describe());
    assert!(list == left, "{}", describe());
    told
}

/// Compares the answers for lists that are enough or short.
fn check(data: &[u8]) -> List {
    let list = build(data, usize::MAX);
    let safe = LeafList::build(data).map_err(plain);
    assert_eq!(safe.map(|list| list.as_numbers().to_vec()), list.clone().map(|l| l.concat()));
    check_walk(data, &list);
    let needed = list.as_ref().map_or(5, Vec::len);
    for numbers in [3 * needed, 3 * needed + 2, 3 * needed + 31] {
        assert_eq!(check_room(data, numbers), list);
    }
    if needed > 0 {
        let short = list.as_ref().map_or_else(|refusal| *refusal, |_| Refusal::new(22, 0));
        for numbers in [0, 3 * needed - 1] {
            assert_eq!(check_room(data, numbers), Err(short));
        }
    }
    list
}

/// Compares the leaves one after the other with the independent reading, and their places with the
/// list.
fn check_walk(data: &[u8], list: &List) {
    let walked = bump_leaves(data);
    let Ok(bump) = reference::bump::read(data) else {
        assert_eq!(walked.map(drop).map_err(plain), list.clone().map(drop), "{}", show(data));
        return;
    };
    let mut walked = walked.expect("a well-formed path");
    let mut places = Vec::new();
    for (level, leaves) in (0..).zip(&bump.path.levels) {
        for leaf in leaves {
            let before = walked.len();
            let BumpLeaf { level: in_level, offset, place, kind } = walked.next().expect("a leaf");
            assert_eq!((in_level, offset, walked.len()), (level, leaf.offset, before - 1));
            let expected = match leaf.node {
                Node::Plain(hash) => LeafKind::Node(barrowtide::Hash::from_stored(hash)),
                Node::Copy => LeafKind::Copy,
                Node::Client(hash) => LeafKind::Client(barrowtide::Hash::from_stored(hash)),
            };
            assert_eq!(kind, expected, "{}", show(data));
            assert_eq!(kind.hash().map(|hash| hash.stored()), leaf.node.hash());
            places.push([level, offset, place]);
        }
    }
    assert_eq!((walked.len(), walked.next(), walked.next()), (0, None, None));
    places.sort_unstable();
    assert_eq!(Ok(&places), list.as_ref(), "{}", show(data));
}

/// Asks a list for a leaf; memory for the place stays where there is none.
fn asked(list: &[u64], level: u64, offset: u64) -> Option<u64> {
    let mut places = [FILL; 3];
    let found = ffi::search_leaves(list, level, offset, &mut places[1]);
    assert_eq!([places[0], places[2]], [FILL; 2]);
    let told = match found {
        1 => Some(places[1]),
        other => {
            assert_eq!((other, places[1]), (0, FILL));
            None
        }
    };
    assert_eq!(search_leaves(list, level, offset), told.map(|place| place as usize));
    told
}

/// Compares a search with the plain one over the bytes, at every leaf, beside it and at the same
/// offset of other levels.
fn check_search(data: &[u8]) {
    let list = LeafList::build(data).expect("a well-formed path");
    let leaves: Vec<ListedLeaf> = list.iter().collect();
    let by_place: BTreeMap<(u64, u64), u64> =
        leaves.iter().map(|leaf| ((leaf.level, leaf.offset), leaf.place)).collect();
    assert_eq!(by_place.len(), leaves.len(), "every leaf once");
    for (number, ListedLeaf { level, offset, .. }) in leaves.iter().enumerate() {
        let near = [offset.wrapping_sub(1), *offset, offset.wrapping_add(1), u64::MAX - offset];
        for level in [level.wrapping_sub(1), *level, level + 1, 64, u64::MAX] {
            for offset in near {
                let told = asked(list.as_numbers(), level, offset);
                assert_eq!(told, by_place.get(&(level, offset)).copied(), "{}", show(data));
                // The plain search reads the bytes each time.
                if number < 40 && data.len() < 3_000 {
                    assert_eq!(search(data, level, offset), Ok(told), "{}", show(data));
                }
            }
        }
        assert_eq!(
            list.search(*level, *offset).map(|place| place as u64),
            Some(leaves[number].place)
        );
    }
}

fn refused(number: u32, carried: u64) -> List {
    Err(Refusal::new(number, carried))
}

#[test]
fn examples() {
    let list = |example: &str| check(&expand(example));
    assert_eq!(list("00 01 00"), Ok(vec![]));
    assert_eq!(list("00 01 01 01 01"), Ok(vec![[0, 1, 3]]));
    // By level and offset, whatever the order of writing; places after a longer block height.
    let some = "fd 00 01 03 03 06 00 [aa] 00 00 [aa] 03 01 01 02 00 [aa] 00";
    let told = vec![[0, 0, 39], [0, 3, 73], [0, 6, 5], [1, 2, 76]];
    assert_eq!(list(some), Ok(told.clone()));
    check_search(&expand(some));
    let numbers = told.concat();
    assert_eq!(asked(&numbers, 0, 3), Some(73));
    assert_eq!(asked(&numbers, 1, 3), None);
    assert_eq!(asked(&numbers, 2, 0), None);
    // A part of the list has the leaves of that part.
    assert_eq!(asked(&numbers[..9], 1, 2), None);
    assert_eq!(asked(&[], 0, 0), None);
    // The reading's refusals, then 22.
    assert_eq!(list("00 00"), refused(4, 1));
    assert_eq!(list("00 01 01 02"), refused(6, 3));
    assert_eq!(list("00 01 01 01 01 00"), refused(9, 5));
    assert_eq!(check_room(&expand("00 01 01 01 01 00"), 0), refused(9, 5));
    assert_eq!(check(&vec![0; MAX_INPUT + 1]), refused(1, 0));
}

/// Every change of one field and every truncation of some paths.
#[test]
fn damaged_fields() {
    let mut random = Random::of("damaged_fields");
    let mut tally = Tally::default();
    for count in [2, 3, 11] {
        let tree = Tree::random(&mut random, count);
        let draft = Plan::random(&mut random, &tree).bump();
        field_edits(&draft).for_each(|edit| tally.note(check(&edit)));
        truncations(&draft.bytes).for_each(|cut| tally.note(check(cut)));
    }
    tally.assert_met(&[0, 2, 3, 4, 5, 6, 7, 8, 9]);
}

/// Paths at random, sound and damaged.
#[test]
fn random_paths() {
    let mut random = Random::of("random_paths");
    let mut tally = Tally::default();
    for _ in 0..rounds() {
        let mut plan = if random.one_in(3) {
            let id = random.hash();
            Plan::grown(&mut random, id)
        } else {
            let count = random.within(2..=40) as usize;
            let tree = Tree::random(&mut random, count);
            Plan::random(&mut random, &tree)
        };
        (0..random.within(0..=2)).for_each(|_| plan.spoil(&mut random));
        let draft = plan.bump();
        let list = check(&draft.bytes);
        if list.is_ok() && random.one_in(4) {
            check_search(&draft.bytes);
        }
        tally.note(list);
        if random.one_in(4) {
            tally.note(check(&random_edit(&mut random, &draft)));
        }
    }
    if rounds() >= 1_000 {
        tally.assert_met(&[0, 2, 4, 5, 6, 7, 8, 9]);
    }
}

/// Levels of up to 1,024 leaves at offsets of any size, rising, falling, in no order, or rising but
/// for one leaf.
#[test]
fn large_levels() {
    let mut random = Random::of("large_levels");
    for _ in 0..(20 + rounds() / 100) {
        let height = random.within(1..=64) as usize;
        let plan = Plan {
            block_height: random.number() % (1 << 32),
            levels: (0..height).map(|level| leaves(&mut random, height - level)).collect(),
        };
        let bytes = plan.bump().bytes;
        assert!(check(&bytes).is_ok());
        check_search(&bytes);
    }
}

/// Leaves of a level from which so many lead to the root.
fn leaves(random: &mut Random, above: usize) -> Vec<Leaf> {
    let last = u64::MAX >> (64 - above);
    let wide = if random.one_in(2) { last } else { last.min(4_095) };
    let most = random.pick(&[2, 40, 40, 1_024]);
    let mut offsets: Vec<u64> = (0..most).map(|_| random.within(0..=wide)).collect();
    offsets.sort();
    offsets.dedup();
    match random.within(0..=3) {
        0 => offsets.reverse(),
        1 => random.shuffle(&mut offsets),
        2 => {
            let (one, other) = (random.index(offsets.len()), random.index(offsets.len()));
            offsets.swap(one, other);
        }
        _ => {}
    }
    let leaf = |offset: u64| {
        let flags = u8::from(offset % 2 == 1 && random.one_in(3));
        Leaf { offset, flags, hash: [offset as u8; 32] }
    };
    offsets.into_iter().map(leaf).collect()
}

/// As many leaves as a BUMP can have.
#[test]
fn most_leaves() {
    let mut random = Random::of("most_leaves");
    for falls in [false, true] {
        let level = |level: u32| {
            let last = u64::MAX >> level;
            let mut offsets: Vec<u64> = (last - last.min(1_023)..=last).collect();
            match falls {
                true => offsets.reverse(),
                false => random.shuffle(&mut offsets),
            }
            let leaf = |offset| Leaf { offset, flags: 0, hash: [7; 32] };
            offsets.into_iter().map(leaf).collect()
        };
        let plan = Plan { block_height: 1, levels: (0..64).map(level).collect() };
        let bytes = plan.bump().bytes;
        assert_eq!(check(&bytes).map(|list| list.len()), Ok(MAX_LISTED));
        check_search(&bytes);
    }
}

/// Over numbers that are no list a search ends, and touches nothing but the place.
#[test]
fn no_lists() {
    let mut random = Random::of("no_lists");
    for _ in 0..rounds() {
        let count = random.within(0..=40) as usize;
        let list: Vec<u64> = (0..count).map(|_| random.number()).collect();
        let (level, offset, mut places) = (random.number(), random.number(), [FILL; 3]);
        let found = ffi::search_leaves(&list, level, offset, &mut places[1]);
        assert!(found <= 1);
        assert_eq!([places[0], places[2]], [FILL; 2]);
    }
}
