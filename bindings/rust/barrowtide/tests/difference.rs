//! Two BUMPs side by side: the library against the reference, the lent list included.

mod common;

use barrowtide::{ffi, read_bump, Difference, Side, MAX_DIFFERENCES, MAX_INPUT};
use common::{expected, plain, FILL, GUARDED};
use reference::difference::{differences, shorter, Entry};
use reference::generate::damage::{field_edits, random_edit, truncations};
use reference::generate::path::{Leaf, Plan};
use reference::generate::random::{rounds, Random};
use reference::generate::tally::Tally;
use reference::generate::tree::Tree;
use reference::hex::{encode, expand, show};
use reference::refusal::Refusal;
use reference::sha256::join;
use reference::Hash;

type List = Result<Vec<Entry>, Refusal>;

/// Compares the answer, and every number of a list of so many numbers and of the two beside it.
fn check_room(first: &[u8], second: &[u8], numbers: usize) -> List {
    let told = differences(first, second, numbers / 3);
    let entries = told.as_ref().map(|list| list.len() as u64).map_err(|refusal| *refusal);
    let before: Vec<u64> = (0..numbers as u64 + 2).map(|place| FILL ^ place).collect();
    let mut left = before.clone();
    if let Ok(list) = &told {
        left[1..=3 * list.len()].copy_from_slice(list.as_flattened());
    }
    let describe = || format!("{} and {}; {numbers} numbers", show(first), show(second));

    // The list lent is the middle of a longer one.
    let (mut guarded, mut count, mut list) = (GUARDED, FILL, before.clone());
    let lent = &mut list[1..=numbers];
    let number = ffi::differences(first, second, lent, &mut guarded.blame, &mut count);
    assert_eq!((number, guarded, count), expected(entries, FILL), "{}", describe());
    assert!(list == left, "{}", describe());

    let mut list = before;
    let safe = barrowtide::differences_into(first, second, &mut list[1..=numbers]);
    assert_eq!(safe.map(|count| count as u64).map_err(plain), entries, "{}", describe());
    assert!(list == left, "{}", describe());
    told
}

/// Compares the answers for lists that are enough or short, and what the list must say either way
/// round.
fn check(first: &[u8], second: &[u8]) -> List {
    let list = differences(first, second, usize::MAX);
    let safe = barrowtide::differences(first, second).map_err(plain);
    let wrapped = list.clone().map(|list| list.into_iter().map(Difference::of_entry).collect());
    assert_eq!(safe, wrapped, "{} and {}", show(first), show(second));
    let needed = list.as_ref().map_or(5, Vec::len);
    for numbers in [3 * needed, 3 * needed + 2, 3 * needed + 31] {
        assert_eq!(check_room(first, second, numbers), list);
    }
    if needed > 0 {
        let short = list.as_ref().map_or_else(|refusal| *refusal, |_| Refusal::new(22, 0));
        for numbers in [0, 3 * needed - 1] {
            assert_eq!(check_room(first, second, numbers), Err(short));
        }
    }
    if let (Ok(list), Ok(back)) = (&list, check_room(second, first, 3 * needed)) {
        assert_eq!(back, list.iter().map(turned).collect::<Vec<_>>());
    }
    list
}

/// The entry if the two change places.
fn turned(entry: &Entry) -> Entry {
    let what = match entry[0] {
        3 => 4,
        4 => 3,
        other => other,
    };
    [what, entry[1], entry[2]]
}

/// Compares which part is handed back, and where it lies.
fn check_shorter(first: &[u8], second: &[u8], id: &Hash) -> Result<usize, Refusal> {
    let told = shorter(first, second, id);
    let describe = || format!("{} and {} for {}", show(first), show(second), show(id));
    let (mut guarded, mut which, mut length) = (GUARDED, FILL, FILL);
    let number = ffi::shorter(first, second, id, &mut guarded.blame, &mut which, &mut length);
    let part = |which: usize| (which as u64, [first, second][which].len() as u64);
    assert_eq!(
        (number, guarded, (which, length)),
        expected(told.map(part), (0, 0)),
        "{}",
        describe()
    );

    let safe =
        barrowtide::shorter(first, second, &barrowtide::Hash::from_stored(*id)).map_err(plain);
    let bytes = told.map(|which| [first, second][which]);
    assert_eq!(safe, bytes, "{}", describe());
    assert_eq!(safe.map(<[u8]>::as_ptr), bytes.map(<[u8]>::as_ptr), "{}", describe());
    told
}

fn refused<T>(number: u32, carried: u64) -> Result<T, Refusal> {
    Err(Refusal::new(number, carried))
}

#[test]
fn lists() {
    let list = |first: &str, second: &str| check(&expand(first), &expand(second));
    let pair = "00 01 02 00 02 [aa] 01 00 [bb]";
    assert_eq!(list(pair, pair), Ok(vec![]));
    // The order of writing is none; block height and tree height come first.
    assert_eq!(list(pair, "00 01 02 01 00 [bb] 00 02 [aa]"), Ok(vec![]));
    assert_eq!(list(pair, "01 01 02 00 02 [aa] 01 00 [bb]"), Ok(vec![[1, 0, 0]]));
    let higher = "01 02 02 00 02 [aa] 01 00 [bb] 01 01 00 [cc]";
    assert_eq!(list(pair, higher), Ok(vec![[1, 0, 0], [2, 0, 0], [4, 1, 1]]));
    // Flags alone, the hash alone, a copy against the hash that it stands for, one only.
    assert_eq!(list(pair, "00 01 02 00 00 [aa] 01 00 [bb]"), Ok(vec![[5, 0, 0]]));
    assert_eq!(list(pair, "00 01 02 00 02 [aa] 01 00 [bc]"), Ok(vec![[5, 0, 1]]));
    assert_eq!(
        list("00 01 02 00 00 [aa] 01 00 [aa]", "00 01 02 00 00 [aa] 01 01"),
        Ok(vec![[5, 0, 1]])
    );
    assert_eq!(list(pair, "00 01 01 00 02 [aa]"), Ok(vec![[3, 0, 1]]));
    assert_eq!(list("00 01 00", pair), Ok(vec![[4, 0, 0], [4, 0, 1]]));
    // By level and offset, whatever the order of writing.
    let some = "00 03 03 06 00 [aa] 00 00 [aa] 03 01 01 02 00 [aa] 00";
    let others = "00 03 02 05 00 [aa] 00 00 [ab] 00 02 01 00 [aa] 00 00 [bb]";
    let told = [[5, 0, 0], [3, 0, 3], [4, 0, 5], [3, 0, 6], [3, 1, 2], [4, 2, 0], [4, 2, 1]];
    assert_eq!(list(some, others), Ok(told.to_vec()));
    // The first path's refusal, then the second's.
    assert_eq!(list("00 00", "00"), refused(4, 1));
    assert_eq!(list(pair, "00 01 01 02"), refused(6, 3));
    assert_eq!(list("00 01 00 00", ""), refused(9, 3));
    let longer = vec![0; MAX_INPUT + 1];
    assert_eq!(check(&expand(pair), &longer), refused(1, 0));
    assert_eq!(check(&longer, &[]), refused(1, 0));
    let leaf = Difference::Leaf { level: 1, offset: 1, side: Side::Second };
    assert_eq!(barrowtide::differences(&expand(pair), &expand(higher)).unwrap()[2], leaf);
}

#[test]
fn parts() {
    let weigh =
        |first: &str, second: &str| check_shorter(&expand(first), &expand(second), &[0xaa; 32]);
    let pair = "00 01 02 00 02 [aa] 01 00 [bb]";
    let long = "fd 00 01 01 02 00 02 [aa] 01 00 [bb]";
    assert_eq!((weigh(pair, long), weigh(long, pair)), (Ok(0), Ok(1)));
    // Equally long: the first, be they equal or not.
    assert_eq!(weigh(pair, pair), Ok(0));
    assert_eq!(weigh(pair, "01 01 02 00 00 [aa] 01 00 [bb]"), Ok(0));
    // Another root; then the refusals of the first, of the second.
    assert_eq!(weigh(pair, "00 01 02 00 02 [aa] 01 00 [bc]"), refused(23, 0));
    assert_eq!(weigh("00 01 00", "00"), refused(13, 0));
    assert_eq!(weigh("00", "00 01 00"), refused(2, 1));
    assert_eq!(weigh(pair, "00 01 00"), refused(13, 0));
    let missing = "00 02 02 00 02 [aa] 01 00 [bb] 00";
    assert_eq!(weigh(missing, "00"), Err(Refusal::of_sibling(14, 1, 1)));
    assert_eq!(weigh(pair, missing), Err(Refusal::of_sibling(14, 1, 1)));
    let parent = encode(&join(&[0xaa; 32], &[0xbb; 32]));
    let twin = format!("00 02 02 02 02 [aa] 03 00 [bb] 01 00 00 {parent}");
    assert_eq!(weigh(&twin, missing), Err(Refusal::of_sibling(15, 1, 0)));
    assert_eq!(weigh(missing, &twin), Err(Refusal::of_sibling(14, 1, 1)));
}

/// Every change of one field and every truncation of a path, beside the path.
#[test]
fn damaged_fields() {
    let mut random = Random::of("damaged_fields");
    let (mut lists, mut parts) = (Tally::default(), Tally::default());
    for count in [2, 3, 11] {
        let tree = Tree::random(&mut random, count);
        let plan = Plan::random(&mut random, &tree);
        let draft = plan.bump();
        let id = random.pick(tree.ids());
        let mut compare = |other: &[u8]| {
            lists.note(check(&draft.bytes, other));
            lists.note(check(other, &draft.bytes));
            parts.note(check_shorter(&draft.bytes, other, &id));
            parts.note(check_shorter(other, &draft.bytes, &id));
        };
        field_edits(&draft).for_each(|edit| compare(&edit));
        truncations(&draft.bytes).for_each(&mut compare);
    }
    lists.assert_met(&[0, 2, 3, 4, 5, 6, 7, 8, 9]);
    parts.assert_met(&[2, 3, 4, 5, 6, 7, 8, 9]);
}

/// Two paths of one block or of two: in another order, with leaves dropped, moved, repeated or
/// changed.
#[test]
fn random_pairs() {
    let mut random = Random::of("random_pairs");
    let (mut lists, mut parts) = (Tally::default(), Tally::default());
    let mut most = 0;
    for _ in 0..rounds() {
        let count = random.within(2..=24) as usize;
        let tree = Tree::random(&mut random, count);
        let first = Plan::random(&mut random, &tree);
        let mut second = match random.within(0..=3) {
            0 => Plan::random(&mut random, &tree),
            1 => {
                let id = random.hash();
                Plan::grown(&mut random, id)
            }
            _ => first.clone(),
        };
        for level in &mut second.levels {
            if random.one_in(2) {
                random.shuffle(level);
            }
        }
        for _ in 0..random.within(0..=2) {
            second.spoil(&mut random);
        }
        let mut bytes = (first.bump().bytes, second.bump().bytes);
        if random.one_in(10) {
            bytes.1 = random_edit(&mut random, &second.bump());
        }
        if random.one_in(2) {
            bytes = (bytes.1, bytes.0);
        }
        let list = check(&bytes.0, &bytes.1);
        most = most.max(list.as_ref().map_or(0, Vec::len));
        lists.note(list);
        let carried: Vec<Hash> = first.levels[0].iter().map(|leaf| leaf.hash).collect();
        parts.note(check_shorter(&bytes.0, &bytes.1, &random.pick(&carried)));
        parts.note(check_shorter(&bytes.0, &bytes.1, &random.pick(tree.ids())));
    }
    if rounds() >= 1_000 {
        lists.assert_met(&[0, 2, 3, 4, 5, 6, 7, 8, 9]);
        parts.assert_met(&[0, 6, 7, 8, 13, 14, 15, 23]);
        assert!(most > 20);
    }
}

/// Levels of up to 1,024 leaves at offsets of any size, in any order.
#[test]
fn large_levels() {
    let mut random = Random::of("large_levels");
    for round in 0..(20 + rounds() / 100) {
        let height = random.within(1..=64) as usize;
        let offsets = |random: &mut Random, level: usize| -> Vec<u64> {
            let last = u64::MAX >> (64 - (height - level));
            let wide = if random.one_in(2) { last } else { last.min(4_095) };
            let count = if random.one_in(4) { 1_024 } else { 40 };
            let mut offsets: Vec<u64> =
                (0..random.within(0..=count)).map(|_| random.within(0..=wide)).collect();
            offsets.sort();
            offsets.dedup();
            match random.within(0..=2) {
                0 => offsets.reverse(),
                1 => random.shuffle(&mut offsets),
                _ => {}
            }
            offsets
        };
        let leaf = |random: &mut Random, offset: u64| Leaf {
            offset,
            flags: if offset % 2 == 1 && random.one_in(3) { 1 } else { 0 },
            hash: [random.within(0..=2) as u8; 32],
        };
        let plan = |random: &mut Random| Plan {
            block_height: random.within(0..=1),
            levels: (0..height)
                .map(|level| {
                    let offsets = offsets(random, level);
                    offsets.into_iter().map(|offset| leaf(random, offset)).collect()
                })
                .collect(),
        };
        let first = plan(&mut random).bump().bytes;
        let second = plan(&mut random).bump().bytes;
        assert!(read_bump(&first).is_ok(), "round {round}");
        assert!(check(&first, &second).is_ok());
        assert_eq!(check(&first, &first), Ok(vec![]));
    }
}

/// Two paths with as many differences as there can be.
#[test]
fn most_differences() {
    let plan = |block_height, height: u32, upper: u64| {
        let level = |level: u32| {
            let last = u64::MAX >> (64 - (height - level));
            let rest = last.min(1_023);
            let first = if upper == 1 { last - rest } else { 0 };
            (first..=first + rest)
                .rev()
                .map(|offset| Leaf { offset, flags: 0, hash: [upper as u8; 32] })
                .collect()
        };
        Plan { block_height, levels: (0..height).map(level).collect() }.bump().bytes
    };
    let list = check(&plan(0, 64, 1), &plan(1, 63, 0)).expect("two sound paths");
    assert_eq!(list.len(), MAX_DIFFERENCES);
}
