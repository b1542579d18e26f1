//! A page of ids against one BUMP: the library against the reference, the lent row included, and
//! against asking singly.

mod common;

use barrowtide::{ffi, prove_bump, Answer, MAX_INPUT, MAX_PAGE};
use common::{expected, plain, FILL, GUARDED};
use reference::generate::damage::{field_edits, random_edit, truncations};
use reference::generate::path::Plan;
use reference::generate::random::{rounds, Random};
use reference::generate::tally::Tally;
use reference::generate::tree::Tree;
use reference::hex::{encode, expand, show};
use reference::page;
use reference::refusal::Refusal;
use reference::sha256::join;
use reference::Hash;

/// What every answer of a lent row holds before the call.
const FILLED: Answer = Answer {
    refusal: FILL,
    carried: FILL,
    layer: FILL,
    sibling: FILL,
    position: FILL,
    layers: FILL,
    root: barrowtide::Hash::from_stored([0xa5; 32]),
};

/// Compares the call's answer and a whole row of `room` answers; gives the row.
fn check(data: &[u8], ids: &[u8], room: usize) -> Result<Vec<Answer>, Refusal> {
    let (told, left) = page::prove_page(data, ids, room);
    let left: Vec<Answer> = left.into_iter().map(answer).collect();
    let describe = || format!("{}; ids {}; room {room}", show(data), show(ids));

    // The row lent is the middle of a longer one.
    let (mut guarded, mut row) = (GUARDED, vec![lent(FILLED); room + 2]);
    let number = ffi::prove_page(data, ids, &mut row[1..=room], &mut guarded.blame);
    assert_eq!((number, guarded, ()), expected(told, ()), "{}", describe());
    assert!(row[1..=room].iter().copied().eq(left.iter().copied().map(lent)), "{}", describe());
    assert_eq!([row[0], row[room + 1]], [lent(FILLED); 2], "{}", describe());

    let mut row = vec![FILLED; room];
    let safe = barrowtide::prove_page_into(data, ids, &mut row).map_err(plain);
    assert_eq!(safe, told, "{}", describe());
    assert_eq!(row, left, "{}", describe());
    told.map(|()| left)
}

/// An answer as the C call writes it.
fn lent(answer: Answer) -> ffi::Answer {
    let Answer { refusal, carried, layer, sibling, position, layers, root } = answer;
    ffi::Answer { refusal, carried, layer, sibling, position, layers, root: *root.stored() }
}

fn answer(told: page::Answer) -> Answer {
    let page::Answer { refusal, carried, layer, sibling, position, layers, root } = told;
    let root = barrowtide::Hash::from_stored(root);
    Answer { refusal, carried, layer, sibling, position, layers, root }
}

/// Compares a page of whole ids with room enough, and each of its answers with asking singly.
fn check_ids(data: &[u8], ids: &[Hash]) -> Result<Vec<Answer>, Refusal> {
    let answers = check(data, ids.as_flattened(), ids.len());
    let ids: Vec<_> = ids.iter().copied().map(barrowtide::Hash::from_stored).collect();
    let safe = barrowtide::prove_page(data, &ids).map_err(plain);
    match (&answers, safe) {
        (Ok(answers), Ok(proofs)) => {
            assert_eq!((answers.len(), proofs.len()), (ids.len(), ids.len()));
            for ((answer, proof), id) in answers.iter().zip(proofs).zip(&ids) {
                let singly = prove_bump(data, id);
                assert_eq!((answer.proof(id), proof), (singly, singly), "{}", show(data));
            }
        }
        (answers, safe) => assert_eq!(safe.err(), answers.as_ref().err().copied()),
    }
    answers
}

fn refused(number: u32, carried: u64) -> Result<Vec<Answer>, Refusal> {
    Err(Refusal::new(number, carried))
}

#[test]
fn examples() {
    let page = |data: &str, ids: &str, room| check(&expand(data), &expand(ids), room);
    let pair = "00 01 02 00 02 [aa] 01 00 [bb]";
    // No ids: the BUMP is read all the same.
    assert_eq!(page("00 01 00", "", 0), Ok(vec![]));
    assert_eq!(page("00 01 00", "", 2), Ok(vec![Answer::default(); 2]));
    assert_eq!(page("00 00", "", 3), refused(4, 1));
    // 5, then 22, then the BUMP's own.
    assert_eq!(page("00 00", "00", 0), refused(5, 0));
    assert_eq!(page("00 00", "[aa] 00", 0), refused(5, 0));
    assert_eq!(page("00 00", "[aa]", 0), refused(22, 0));
    assert_eq!(page("00 00", "[aa]", 1), refused(4, 1));
    assert_eq!(page(pair, "[aa] [bb]", 1), refused(22, 0));
    // A refused id is an answer in its row; an id may be asked about twice.
    let row = page(pair, "[cc] [bb] [aa] [bb]", 6).expect("a page");
    let summary: Vec<_> =
        row.iter().map(|a| (a.refusal, a.carried, a.position, a.layers)).collect();
    let zero = (0, 0, 0, 0);
    assert_eq!(summary, [(13, 0, 0, 0), (0, 0, 1, 1), (0, 0, 0, 1), (0, 0, 1, 1), zero, zero]);
    assert_eq!((row[1].root, row[4]), (row[2].root, Answer::default()));
    // A sibling of layer 1 that is worked out for the left pair and a twin for the right one, and
    // one that is missing.
    let parent = encode(&join(&[0xcc; 32], &[0xdd; 32]));
    let level = "04 00 02 [aa] 01 00 [bb] 02 02 [cc] 03 00 [dd]";
    let row = page(&format!("00 02 {level} 01 00 00 {parent}"), "[aa] [cc]", 2).expect("a page");
    let twin = Answer { refusal: 15, layer: 1, sibling: 0, ..Answer::default() };
    assert_eq!((row[0].refusal, row[1]), (0, twin));
    let row = page("00 02 02 00 02 [aa] 01 00 [bb] 00", "[aa]", 1).expect("a page");
    let missing = Answer { refusal: 14, layer: 1, sibling: 1, ..Answer::default() };
    assert_eq!(row[0], missing);
    // Each id's own sibling is blamed; the last id is not listed.
    let row = page("00 03 02 01 02 [aa] 06 02 [bb] 00 00", "[bb] [aa] [cc]", 3).expect("a page");
    let blamed: Vec<_> = row.iter().map(|a| (a.refusal, a.layer, a.sibling)).collect();
    assert_eq!(blamed, [(14, 0, 7), (14, 0, 0), (13, 0, 0)]);
}

/// Pages and rows of every size about the greatest.
#[test]
fn sizes() {
    let mut random = Random::of("sizes");
    let tree = Tree::random(&mut random, 300);
    let all: Vec<u64> = (0..300).collect();
    let bump = Plan::of(&tree, &all).bump().bytes;
    let ids = tree.ids();
    for count in [0, 1, 2, 100, 255, 256] {
        let answers = check_ids(&bump, &ids[..count]).expect("a sound path");
        assert!(answers.iter().all(|answer| answer.root.stored() == &tree.root()));
        for room in [0, count.saturating_sub(1), count + 1, 300] {
            let answered = check(&bump, ids[..count].as_flattened(), room).is_ok();
            assert_eq!(answered, room >= count);
        }
    }
    for count in [MAX_PAGE + 1, 300] {
        assert_eq!(check_ids(&bump, &ids[..count]), refused(5, 0));
    }
    let bytes = ids.as_flattened();
    for length in [1, 31, 33, 32 * MAX_PAGE - 1, 32 * MAX_PAGE + 1] {
        assert_eq!(check(&bump, &bytes[..length], 300), refused(5, 0));
        assert_eq!(check(&bump, &bytes[..length], 0), refused(5, 0));
    }
    let longer = vec![0; MAX_INPUT + 1];
    assert_eq!(check(&longer, &bytes[..33], 2), refused(5, 0));
    assert_eq!(check(&longer, &bytes[..32], 0), refused(22, 0));
    assert_eq!(check(&longer, &bytes[..32], 2), refused(1, 0));
    assert_eq!(check(&longer[1..], &bytes[..32], 2), refused(4, 1));
}

/// Ids for a page: some that the path carries, at any level, some strangers, in any order.
fn some_ids(random: &mut Random, plan: &Plan) -> Vec<Hash> {
    let carried: Vec<Hash> = plan.levels.iter().flatten().map(|leaf| leaf.hash).collect();
    let most = if random.one_in(100) { 270 } else { 8 };
    let id = |random: &mut Random| match carried.is_empty() || random.one_in(5) {
        true => random.hash(),
        false => random.pick(&carried),
    };
    (0..random.within(0..=most)).map(|_| id(random)).collect()
}

/// Pages about merged paths, whose siblings are the same again and again, and sometimes are not.
#[test]
fn merged_paths() {
    let mut random = Random::of("merged_paths");
    let mut rows = Tally::default();
    for _ in 0..rounds() {
        let plan = Plan::merged(&mut random, 40);
        let mut ids: Vec<Hash> = plan.levels[0].iter().map(|leaf| leaf.hash).collect();
        for _ in 0..random.within(0..=3) {
            ids.insert(random.index(ids.len() + 1), random.hash());
        }
        if random.one_in(3) {
            random.shuffle(&mut ids);
        }
        for answer in check_ids(&plan.bump().bytes, &ids).unwrap_or_default() {
            rows.note(answer.proof(&barrowtide::Hash::default()).map_err(plain));
        }
    }
    if rounds() >= 1_000 {
        rows.assert_met(&[0, 13, 14, 15]);
    }
}

/// Every change of one field and every truncation of a path.
#[test]
fn damaged_fields() {
    let mut random = Random::of("damaged_fields");
    let mut tally = Tally::default();
    for count in [2, 3, 11] {
        let tree = Tree::random(&mut random, count);
        let plan = Plan::random(&mut random, &tree);
        let draft = plan.bump();
        let ids = some_ids(&mut random, &plan);
        field_edits(&draft).for_each(|edit| tally.note(check_ids(&edit, &ids)));
        truncations(&draft.bytes).for_each(|cut| tally.note(check_ids(cut, &ids)));
    }
    tally.assert_met(&[0, 2, 3, 4, 5, 6, 7, 8, 9]);
}

/// Sound paths, paths with leaves dropped, moved, repeated or changed, and pages and rows of any
/// shape.
#[test]
fn random_pages() {
    let mut random = Random::of("random_pages");
    let (mut pages, mut rows) = (Tally::default(), Tally::default());
    for _ in 0..rounds() {
        let count = random.within(2..=24) as usize;
        let tree = Tree::random(&mut random, count);
        let id = random.hash();
        let mut plan = match random.one_in(3) {
            true => Plan::grown(&mut random, id),
            false => Plan::random(&mut random, &tree),
        };
        for _ in 0..random.within(0..=2) {
            plan.spoil(&mut random);
        }
        let ids = some_ids(&mut random, &plan);
        let bytes = plan.bump().bytes;
        for answer in check_ids(&bytes, &ids).unwrap_or_default() {
            rows.note(answer.proof(&barrowtide::Hash::default()).map_err(plain));
        }
        let mut list = ids.concat();
        if random.one_in(4) {
            list.extend(random.bytes(1));
        }
        let room = random.within(0..=ids.len() as u64 + 3) as usize;
        pages.note(check(&bytes, &list, room));
        pages.note(check(&random_edit(&mut random, &plan.bump()), &list, room));
    }
    if rounds() >= 1_000 {
        rows.assert_met(&[0, 13, 14, 15]);
        pages.assert_met(&[0, 2, 3, 4, 5, 6, 7, 8, 9, 22]);
    }
}
