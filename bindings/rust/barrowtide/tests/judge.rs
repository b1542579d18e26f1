//! Judging bundles: the library against the reference, the table and the hash work included.

mod common;
#[path = "common/judging.rs"]
mod judging;

use barrowtide::{Record, MAX_INPUT, MAX_TRANSACTIONS};
use judging::{bytes, judged, FILLED};
use reference::beef::MAX_TOTAL;
use reference::generate::bundle::Plan;
use reference::generate::damage::{field_edits, random_edit, truncations};
use reference::generate::random::{rounds, Random};
use reference::generate::tally::Tally;
use reference::generate::transaction::Outpoint;
use reference::generate::tree::Tree;
use reference::generate::{path, transaction};
use reference::hex::{decode, expand};
use reference::refusal::Refusal;
use reference::sha256::{join, sha256d};
use reference::Hash;

/// Compares what judging comes to with a table of `room` records and a fee of 0.
fn check(data: &[u8], roots: &[u8], room: usize) -> Result<Vec<Record>, Refusal> {
    check_fee(data, roots, 0, room)
}

/// The same with a fee.
fn check_fee(data: &[u8], roots: &[u8], fee: u64, room: usize) -> Result<Vec<Record>, Refusal> {
    judged(data, roots, fee, room).0
}

/// Judges a plan with room enough.
fn check_plan(plan: &Plan) -> Result<Vec<Record>, Refusal> {
    check_fee(&plan.draft().bytes, &plan.root_list(), plan.fee, plan.entries.len())
}

fn refused(number: u32, carried: u64) -> Result<Vec<Record>, Refusal> {
    Err(Refusal::new(number, carried))
}

fn blamed(number: u32, carried: u64, layer: u64, sibling: u64) -> Result<Vec<Record>, Refusal> {
    Err(Refusal { number, carried, layer, sibling })
}

#[test]
fn published_bundle() {
    let bundle = decode(include_str!("../../tests/data/004-bundle.hex"));
    let root = reference::prove::all_clients(&bundle[5..290]).unwrap();
    let records = check(&bundle, &root, 2).unwrap();
    let summary = |record: &Record| {
        (record.start, record.length, record.is_anchored(), record.bump, record.position)
    };
    assert_eq!(summary(&records[0]), (291, 192, true, 0, 21));
    assert_eq!(summary(&records[1]), (485, 191, false, 0, 0));
    let parent = "3ecead27a44d013ad1aae40038acbb1883ac9242406808bb4667c15b4f164eac";
    assert_eq!(records[0].id.to_string(), parent);
    assert_eq!(records[1].id.stored(), &sha256d(&bundle[485..676]));
    let paid = |record: &Record| (record.outputs, record.total);
    assert_eq!((paid(&records[0]), paid(&records[1])), ((1, 26_174), (1, 26_172)));
    assert_eq!(check_fee(&bundle, &root, 1, 2).as_ref(), Ok(&records));
    assert_eq!(check_fee(&bundle, &root, 2, 2), refused(28, 1));

    assert_eq!(check(&bundle, &[], 2), refused(17, 0));
    assert_eq!(check(&bundle, &[0; 64], 2), refused(17, 0));
    assert_eq!(check(&bundle, &root[1..], 2), refused(21, 0));
    assert_eq!(check(&bundle, &root, 1), refused(22, 290));
    assert_eq!(check(&bundle, &[[7; 32], root, root].concat(), 5), Ok(records));
    // Printed order is not stored order.
    let reversed: Hash = std::array::from_fn(|i| root[31 - i]);
    assert_eq!(check(&bundle, &reversed, 2), refused(17, 0));
    for cut in truncations(&bundle) {
        assert!(check(cut, &root, 2).is_err());
    }
}

/// A transaction of 60 bytes, one of 65, and the fields of one of 64.
const T60: &str = "01 00 00 00 01 [aa] 00 00 00 00 00 ff{4} 01 e8 03 00{6} 00 00{4}";
const T65: &str = "01 00 00 00 01 [aa] 00 00 00 00 05 51{5} ff{4} 01 e8 03 00{6} 00 00{4}";
const T64: &str = "01 00 00 00 01 [aa] 00 00 00 00 04 51{4} ff{4} 01 e8 03 00{6} 00 00{4}";

#[test]
fn examples() {
    let id = sha256d(&expand(T60));
    let root = join(&id, &[0xbb; 32]);
    let hex: String = id.iter().map(|byte| format!("{byte:02x}")).collect();
    let judged = |text: &str, roots: &[u8], room| {
        let text = text.replace("HEAD", "01 00 be ef 01 00 01 02 00 02 I60 01 00 [bb]");
        let text = text.replace("I60", &hex).replace("T60", T60).replace("T65", T65);
        let text = text.replace("T64", T64);
        check(&expand(&text), roots, room)
    };
    // 5, 12 and 22 on the count, in that order; then what follows it.
    assert_eq!(judged("01 00 be ef 00 fd 01 01", &[], 0), refused(5, 5));
    assert_eq!(judged("01 00 be ef 00 00", &[], 0), refused(12, 5));
    assert_eq!(judged("01 00 be ef 00 01 ff", &[], 0), refused(22, 5));
    assert_eq!(judged("01 00 be ef 00 01", &[], 1), refused(2, 6));
    // 1, 21, then the fields.
    assert_eq!(judged("02 00 be ef", &[0], 1), refused(21, 0));
    assert_eq!(judged("02 00 be ef", &[], 1), refused(10, 0));
    // Judging.
    assert!(judged("HEAD 01 T60 01 00", &root, 1).is_ok());
    assert_eq!(judged("HEAD 02 T60 01 00 T60 00", &root, 2), refused(19, 1));
    assert_eq!(judged("HEAD 02 T60 01 00 T60 01 00", &root, 2), refused(19, 1));
    assert_eq!(judged("HEAD 02 T60 01 00 T65 01 00", &root, 2), refused(13, 1));
    assert_eq!(judged("HEAD 02 T60 01 00 T64 01 00", &root, 2), refused(11, 139));
    assert_eq!(judged("HEAD 02 T64 01 00 T60 01 00", &root, 2), refused(11, 77));
    assert_eq!(judged("HEAD 01 T60 02", &root, 2), refused(7, 137));
    assert_eq!(judged("HEAD 01 T60 01 01", &root, 2), refused(18, 138));
    assert_eq!(judged("HEAD 01 T60 00", &root, 2), refused(20, 0));
    // 20, 26, 27, 28, each over all inputs; T60 pays 1,000.
    let spends = |inputs: &str, pays: &str| {
        let inputs = inputs.replace("STRANGER", "[aa] 00 00 00 00 00 ff{4}");
        let inputs = inputs.replace("ZERO", "I60 00 00 00 00 00 ff{4}");
        let inputs = inputs.replace("ONE", "I60 01 00 00 00 00 ff{4}");
        let child = format!("01 00 00 00 {inputs} 01 {pays} 00{{6}} 00 00{{4}} 00");
        judged(&format!("HEAD 02 T60 01 00 {child}"), &root, 2).map(|records| records[1].total)
    };
    let refused_child = |number| Err(Refusal::new(number, 1));
    assert_eq!(spends("02 ONE STRANGER", "00 00"), refused_child(20));
    assert_eq!(spends("03 ZERO ZERO ONE", "00 00"), refused_child(26));
    assert_eq!(spends("02 ZERO ZERO", "00 00"), refused_child(27));
    assert_eq!(spends("01 ZERO", "e8 03"), refused_child(28));
    assert_eq!(spends("01 ZERO", "e7 03"), Ok(999));
    // A fault in reading beats any in judging.
    assert_eq!(judged("HEAD 02 T60 00 T65 01 07", &root, 2), refused(18, 204));
    assert_eq!(judged("HEAD 01 T60 00 00", &root, 2), refused(9, 138));
}

/// Sound bundles of every small size, and of the greatest.
#[test]
fn sound_bundles() {
    let mut random = Random::of("sound_bundles");
    for count in (1..=40).chain([255, 256]) {
        let mut plan = Plan::random(&mut random, count);
        let records = check_plan(&plan).expect("a sound bundle");
        for (record, (transaction, anchor)) in records.iter().zip(&plan.entries) {
            assert_eq!(record.id.stored(), &transaction.id());
            assert_eq!(record.is_anchored().then_some(record.bump.into()), *anchor);
            assert_eq!(record.outputs, transaction.outputs.len() as u64);
            assert_eq!(u128::from(record.total), transaction.total());
        }
        let roots: Vec<_> = plan.roots.iter().copied().map(barrowtide::Hash::from_stored).collect();
        let verdict = barrowtide::judge(&plan.draft().bytes, &roots, plan.fee).unwrap();
        assert_eq!(verdict.records, records);
        // The last of several is not anchored; its last input must have a parent, too.
        if count > 1 {
            plan.entries[count as usize - 1].0.inputs.push((random.hash(), 0, Vec::new(), 0));
            assert_eq!(check_plan(&plan), refused(20, count - 1));
        }
    }
}

/// Transactions whose lengths are far apart and lie about the ends of SHA-256's blocks: hashed side
/// by side, each has its own id.
#[test]
fn transactions_of_many_lengths() {
    let mut random = Random::of("transactions_of_many_lengths");
    for _ in 0..rounds() / 10 {
        let count = random.within(1..=13);
        let mut plan = Plan::random(&mut random, count);
        let count = plan.entries.len();
        for entry in count.saturating_sub(6)..count {
            let blocks = if random.one_in(20) { 2_000 } else { random.within(0..=9) as usize };
            let shortest = plan.entries[entry].0.draft().bytes.len();
            let length = 64 * blocks + random.within(50..=66) as usize;
            let script = random.bytes(length.saturating_sub(shortest + 11));
            plan.change(entry, |transaction| transaction.outputs.push((0, script)));
        }
        let _ = check_plan(&plan);
    }
}

/// Tables of every size, and lists of roots of every shape.
#[test]
fn tables_and_lists() {
    let mut random = Random::of("tables_and_lists");
    for count in [1, 2, 5, 9] {
        let plan = Plan::random(&mut random, count);
        let (bytes, roots) = (plan.draft().bytes, plan.root_list());
        let check = |bytes: &[u8], roots: &[u8], room| check_fee(bytes, roots, plan.fee, room);
        for room in (0..=count as usize + 3).chain([MAX_TRANSACTIONS, 300]) {
            assert_eq!(check(&bytes, &roots, room).is_ok(), room >= count as usize);
        }
        for length in 0..=roots.len() {
            let _ = check(&bytes, &roots[..length], count as usize);
            let _ = check(&bytes, &roots[roots.len() - length..], 0);
        }
        let many: Vec<u8> = [random.bytes(32 * 1_000), roots.clone(), roots].concat();
        assert!(check(&bytes, &many, count as usize).is_ok());
        assert!(check(&bytes, &many[32..], count as usize).is_ok());
        assert_eq!(check(&bytes, &many[1..], count as usize), refused(21, 0));
    }
}

/// BUMPs of 64 layers: a record holds every position.
#[test]
fn tall_paths() {
    let mut random = Random::of("tall_paths");
    for position in [0, u32::MAX.into(), 1 << 32, 1 << 63, u64::MAX, random.bits()] {
        let own = transaction::Plan::mined(&mut random);
        let (id, mut root) = (own.id(), own.id());
        let mut levels = Vec::new();
        for layer in 0..64 {
            let (at, hash) = (position >> layer, random.hash());
            levels.push(vec![path::Leaf { offset: at ^ 1, flags: 0, hash }]);
            root = if at % 2 == 0 { join(&root, &hash) } else { join(&hash, &root) };
        }
        levels[0].push(path::Leaf { offset: position, flags: 2, hash: id });
        let bumps = vec![path::Plan { block_height: 0, levels }];
        let plan = Plan { bumps, entries: vec![(own, Some(0))], roots: vec![root], fee: 0 };
        assert_eq!(check_plan(&plan).expect("a sound bundle")[0].position, position);
    }
}

/// The slips of the course, each in a bundle of its own.
#[test]
fn slips() {
    let mut random = Random::of("slips");
    let parent = transaction::Plan::spending(&mut random, &[([7; 32], 0)], &[1_000]);
    let child = transaction::Plan::spending(&mut random, &[(parent.id(), 0)], &[900]);
    let mut ids: Vec<Hash> = (0..11).map(|_| random.hash()).collect();
    ids[9] = parent.id();
    let tree = Tree::new(ids);
    let sound = Plan {
        bumps: vec![path::Plan::of(&tree, &[9])],
        entries: vec![(parent, Some(0)), (child, None)],
        roots: vec![tree.root()],
        fee: 0,
    };
    assert_eq!(check_plan(&sound).unwrap()[0].position, 9);

    // A leaf with flags 00 serves as well as a client's.
    let mut plain = sound.clone();
    plain.bumps[0].levels[0].iter_mut().for_each(|leaf| leaf.flags = 0);
    assert_eq!(check_plan(&plain), check_plan(&sound));

    // A parent that comes later.
    let mut later = sound.clone();
    later.entries.swap(0, 1);
    assert_eq!(check_plan(&later), refused(20, 0));

    // Position 9 in a tree of three layers does not pass as 1.
    let mut shallow = sound.clone();
    shallow.bumps[0].levels.pop();
    let first_offset = 4 + 1 + 5 + 1 + 1;
    assert_eq!(check_plan(&shallow), refused(6, first_offset));

    // A sibling that is not written, and one that equals the working hash at an odd position.
    let mut missing = sound.clone();
    missing.bumps[0].levels[2].clear();
    assert_eq!(check_plan(&missing), blamed(14, 0, 2, 3));
    let mut twin = sound.clone();
    twin.bumps[0].levels[3][0].hash = tree.hash(3, 1);
    assert_eq!(check_plan(&twin), blamed(15, 0, 3, 0));

    // A BUMP that no transaction names is only read.
    let mut unused = sound.clone();
    unused.bumps.push(path::Plan { block_height: 0, levels: vec![Vec::new()] });
    assert_eq!(check_plan(&unused).unwrap().len(), 2);

    // Nothing is asked of the inputs of an anchored transaction, but all of one that is not.
    let mut orphan = sound.clone();
    let stranger = (random.hash(), 0, Vec::new(), 0);
    orphan.entries[1].0.inputs.push(stranger);
    assert_eq!(check_plan(&orphan), refused(20, 1));
}

/// 14 and 15 tell the transaction and, in its BUMP, the sibling.
#[test]
fn blamed_siblings() {
    let mut random = Random::of("blamed_siblings");
    let mut plan = Plan { bumps: Vec::new(), entries: Vec::new(), roots: Vec::new(), fee: 0 };
    let mut trees = Vec::new();
    for number in 0..3 {
        let own = transaction::Plan::mined(&mut random);
        let mut ids: Vec<Hash> = (0..8).map(|_| random.hash()).collect();
        ids[6] = own.id();
        let tree = Tree::new(ids);
        plan.bumps.push(path::Plan::of(&tree, &[6]));
        plan.entries.push((own, Some(number)));
        plan.roots.push(tree.root());
        trees.push(tree);
    }
    assert!(check_plan(&plan).is_ok());
    for number in [2, 1, 0] {
        let mut twin = plan.clone();
        twin.bumps[number].levels[1][0].hash = trees[number].hash(1, 3);
        assert_eq!(check_plan(&twin), blamed(15, number as u64, 1, 2));
        for (layer, sibling) in [(2, 0), (1, 2), (0, 7)] {
            plan.bumps[number].levels[layer].retain(|leaf| leaf.offset != sibling);
            let told = blamed(14, number as u64, layer as u64, sibling);
            assert_eq!(check_plan(&plan), told);
        }
    }
    // 13 of an earlier transaction, and no sibling.
    plan.bumps[0].levels[0].clear();
    assert_eq!(check_plan(&plan), refused(13, 0));
}

/// A bundle of a mined transaction that pays these amounts; others may follow.
fn mined(random: &mut Random, amounts: &[u64]) -> Plan {
    let stranger = (random.hash(), 0);
    let parent = transaction::Plan::spending(random, &[stranger], amounts);
    let tree = Tree::new(vec![parent.id(), random.hash()]);
    Plan {
        bumps: vec![path::Plan::of(&tree, &[0])],
        entries: vec![(parent, Some(0))],
        roots: vec![tree.root()],
        fee: 0,
    }
}

/// Adds a transaction without a BUMP that spends outputs of earlier ones and pays these amounts.
fn spend(plan: &mut Plan, random: &mut Random, outputs: &[(usize, u32)], amounts: &[u64]) {
    let outpoints: Vec<Outpoint> =
        outputs.iter().map(|&(entry, output)| (plan.entries[entry].0.id(), output)).collect();
    plan.entries.push((transaction::Plan::spending(random, &outpoints, amounts), None));
}

/// 26, then 27, then 28, each over all inputs; what is left must be more than the fee.
#[test]
fn amounts() {
    let mut random = Random::of("amounts");
    let mut judged = |outputs: &[(usize, u32)], pays: u64, fee: u64| {
        let mut plan = mined(&mut random, &[1_000]);
        spend(&mut plan, &mut random, outputs, &[pays]);
        check_plan(&Plan { fee, ..plan }).map(|records| records[1].total)
    };
    let refused = |number| Err(Refusal::new(number, 1));
    for (fee, most) in [(0, 999), (1, 998), (998, 1), (999, 0)] {
        assert_eq!(judged(&[(0, 0)], most, fee), Ok(most));
        assert_eq!(judged(&[(0, 0)], most + 1, fee), refused(28));
        assert_eq!(judged(&[(0, 0)], most, fee + 1), refused(28));
    }
    // Outputs plus the fee come to 2^64 and more.
    for fee in [u64::MAX, u64::MAX - 1, u64::MAX - 998, u64::MAX - 999] {
        assert_eq!(judged(&[(0, 0)], 999, fee), refused(28));
    }
    assert_eq!(judged(&[(0, 0)], 0, 1_000), refused(28));
    assert_eq!(judged(&[(0, 1)], 0, 0), refused(26));
    assert_eq!(judged(&[(0, u32::MAX)], 0, 0), refused(26));
    assert_eq!(judged(&[(0, 0), (0, 0)], 0, 0), refused(27));
    assert_eq!(judged(&[(0, 0), (0, 0)], 2_000, 0), refused(27));
    assert_eq!(judged(&[(0, 0), (0, 0), (0, 1)], 0, 0), refused(26));
    assert_eq!(judged(&[(0, 0), (0, 1)], 5_000, 7), refused(26));
}

/// Of an input without parent 20 comes before 26, and a transaction's 28 before another's 20.
#[test]
fn amounts_in_order() {
    let mut random = Random::of("amounts_in_order");
    let stranger = (random.hash(), 0, Vec::new(), 0);
    let mut plan = mined(&mut random, &[1_000, 500]);
    spend(&mut plan, &mut random, &[(0, 2)], &[1]);
    plan.entries[1].0.inputs.push(stranger.clone());
    assert_eq!(check_plan(&plan), refused(20, 1));

    // The second spends what the first has; each fault of the first hides that.
    let mut plan = mined(&mut random, &[1_000, 500]);
    spend(&mut plan, &mut random, &[(0, 0)], &[900]);
    spend(&mut plan, &mut random, &[(0, 1), (0, 0)], &[0]);
    assert_eq!(check_plan(&plan), refused(27, 2));
    plan.entries[1].0.outputs[0].0 = 1_000;
    assert_eq!(check_plan(&plan), refused(28, 1));
    plan.entries[1].0.inputs[0].1 = 2;
    assert_eq!(check_plan(&plan), refused(26, 1));
    plan.entries[2].0.inputs.push(stranger.clone());
    assert_eq!(check_plan(&plan), refused(26, 1));
    plan.entries[1].0.inputs[0].1 = 1;
    plan.entries[1].0.outputs[0].0 = 499;
    assert_eq!(check_plan(&plan), refused(20, 2));

    // A chain: what one pays the next may spend, once.
    let mut plan = mined(&mut random, &[1_000]);
    for pays in [900, 800, 700] {
        let last = plan.entries.len() - 1;
        spend(&mut plan, &mut random, &[(last, 0)], &[pays]);
    }
    assert!(check_plan(&plan).is_ok());
    assert_eq!(check_plan(&Plan { fee: 99, ..plan.clone() }).map(|records| records.len()), Ok(4));
    assert_eq!(check_plan(&Plan { fee: 100, ..plan.clone() }), refused(28, 1));
    spend(&mut plan, &mut random, &[(3, 0), (1, 0)], &[1]);
    assert_eq!(check_plan(&plan), refused(27, 4));
}

/// What an anchored transaction spends is not looked at: not whether it is there, not what it comes
/// to, and not whether others spend it.
#[test]
fn anchored_spenders() {
    let mut random = Random::of("anchored_spenders");
    let parent = transaction::Plan::spending(&mut random, &[([7; 32], 0)], &[1_000]);
    let outpoints = [(parent.id(), 0), (parent.id(), 0), (parent.id(), 5)];
    let rich = transaction::Plan::spending(&mut random, &outpoints, &[MAX_TOTAL - 1, 1]);
    let tree = Tree::new(vec![parent.id(), rich.id(), random.hash()]);
    let mut plan = Plan {
        bumps: vec![path::Plan::of(&tree, &[0, 1])],
        entries: vec![(parent, Some(0)), (rich, Some(0))],
        roots: vec![tree.root()],
        fee: 0,
    };
    spend(&mut plan, &mut random, &[(0, 0)], &[999]);
    spend(&mut plan, &mut random, &[(1, 1), (1, 0)], &[MAX_TOTAL - 2, 1]);
    let records = check_plan(&plan).expect("a sound bundle");
    assert_eq!((records[1].outputs, records[1].total), (2, MAX_TOTAL));
    plan.entries.swap(0, 1);
    assert_eq!(check_plan(&plan).map(|records| records.len()), Ok(4));
    // Without its BUMP it is judged like the others.
    plan.entries.swap(0, 1);
    plan.entries[1].1 = None;
    assert_eq!(check_plan(&plan), refused(26, 1));
}

/// 25 at the amount that is over the limit, or takes the running total over it, wherever the
/// transaction stands.
#[test]
fn amounts_at_the_limit() {
    let mut random = Random::of("amounts_at_the_limit");
    for anchored in [false, true] {
        for (amounts, over) in [
            (vec![MAX_TOTAL], None),
            (vec![0, MAX_TOTAL, 0], None),
            (vec![MAX_TOTAL - 5, 3, 2], None),
            (vec![MAX_TOTAL + 1], Some(0)),
            (vec![u64::MAX, 0], Some(0)),
            (vec![1 << 63], Some(0)),
            (vec![MAX_TOTAL, 1], Some(1)),
            (vec![1, MAX_TOTAL, 1], Some(1)),
            (vec![1, u64::MAX, 1], Some(1)),
            (vec![MAX_TOTAL - 5, 3, 3, 0], Some(2)),
        ] {
            let mut plan = mined(&mut random, if anchored { &amounts } else { &[1] });
            if !anchored {
                spend(&mut plan, &mut random, &[(0, 0)], &amounts);
            }
            let last = &plan.entries[plan.entries.len() - 1].0;
            // The field of the first amount, after version, inputs and count; each has three.
            let field = 1 + 1 + 5 * last.inputs.len() + 1;
            let start = plan.draft().bytes.len() - last.draft().bytes.len() - 1 - anchored as usize;
            let place = |output: usize| start + last.draft().fields[field + 3 * output].0.start;
            match over {
                Some(output) => assert_eq!(check_plan(&plan), refused(25, place(output) as u64)),
                None if anchored => assert_eq!(check_plan(&plan).unwrap()[0].total, MAX_TOTAL),
                None => assert_eq!(check_plan(&plan), refused(28, 1)),
            }
        }
    }
}

/// All small bundles: two transactions that spend one or two outputs of four, one of them not there.
#[test]
fn small_bundles() {
    let mut random = Random::of("small_bundles");
    let mut tally = Tally::default();
    let spent = |parents: [(usize, u32); 4]| -> Vec<Vec<(usize, u32)>> {
        let one = parents.map(|output| vec![output]);
        let two = parents.iter().flat_map(|first| parents.map(|second| vec![*first, second]));
        one.into_iter().chain(two).collect()
    };
    let start = mined(&mut random, &[2, 4, 1]);
    for first in spent([(0, 0), (0, 1), (0, 2), (0, 3)]) {
        for second in spent([(0, 0), (0, 1), (1, 0), (1, 1)]) {
            for pays in 0..9 {
                let mut plan = start.clone();
                spend(&mut plan, &mut random, &first, &[pays % 3]);
                spend(&mut plan, &mut random, &second, &[pays / 3]);
                for fee in [0, 1] {
                    tally.note(check_plan(&Plan { fee, ..plan.clone() }));
                }
            }
        }
    }
    tally.assert_met(&[0, 26, 27, 28]);
}

/// Outputs by the ten thousand, spent about every 65,536th: once, again by the same transaction or
/// by a later one, in any order.
#[test]
fn many_outputs() {
    let mut random = Random::of("many_outputs");
    let mut tally = Tally::default();
    for _ in 0..rounds().div_ceil(50) {
        let mut all: Vec<Outpoint> = Vec::new();
        let mut entries = Vec::new();
        for _ in 0..3 {
            let count = random.pick(&[1, 2, 65_534, 65_535, 65_536, 65_537, 131_072]);
            let mut parent = transaction::Plan::mined(&mut random);
            parent.outputs = vec![(1, Vec::new()); count];
            let id = parent.id();
            all.extend((0..count as u32).map(|output| (id, output)));
            entries.push((parent, Some(0)));
        }
        let tree = Tree::new(entries.iter().map(|entry| entry.0.id()).collect());
        let bumps = vec![path::Plan::of(&tree, &[0, 1, 2])];
        let mut plan = Plan { bumps, entries, roots: vec![tree.root()], fee: 0 };
        let near = |number: &usize| (number + 2) % 65_536 < 4;
        let mut unspent: Vec<usize> = (0..all.len()).filter(near).collect();
        random.shuffle(&mut unspent);
        let mut before = Vec::new();
        for _ in 0..random.within(1..=4) {
            let count = random.within(1..=4).min(unspent.len() as u64) as usize;
            let mut spent: Vec<Outpoint> =
                unspent.drain(..count).map(|number| all[number]).collect();
            before.extend(&spent);
            if before.is_empty() || random.one_in(6) {
                spent.push(all[random.index(all.len())]);
            }
            if spent.is_empty() || random.one_in(6) {
                spent.push(random.pick(&before));
            }
            random.shuffle(&mut spent);
            let pays = spent.len() as u64 - u64::from(!random.one_in(6));
            plan.entries.push((transaction::Plan::spending(&mut random, &spent, &[pays]), None));
        }
        tally.note(check_plan(&plan));
    }
    if rounds() >= 5_000 {
        tally.assert_met(&[0, 27, 28]);
    }
}

/// Every change of one field and every truncation of some bundles.
#[test]
fn damaged_fields() {
    let mut random = Random::of("damaged_fields");
    let mut tally = Tally::default();
    for count in [1, 2, 4] {
        let plan = Plan::random(&mut random, count);
        let (draft, roots) = (plan.draft(), plan.root_list());
        for edit in field_edits(&draft) {
            tally.note(check_fee(&edit, &roots, plan.fee, count as usize));
        }
        for cut in truncations(&draft.bytes) {
            tally.note(check_fee(cut, &roots, plan.fee, count as usize));
        }
    }
    tally.assert_met(&[0, 2, 3, 4, 5, 6, 7, 8, 9, 10, 11, 12, 13, 17, 18, 20, 22, 25, 26]);
}

/// Bundles with transactions dropped, repeated, swapped or changed, paths spoilt, amounts and fees
/// changed, and outputs spent that are not there or spent already.
#[test]
fn spoilt_bundles() {
    let mut random = Random::of("spoilt_bundles");
    let mut tally = Tally::default();
    for _ in 0..rounds() {
        let count = random.within(2..=8);
        let mut plan = Plan::random(&mut random, count);
        for _ in 0..random.within(1..=2) {
            plan.spoil(&mut random);
        }
        tally.note(check_plan(&plan));
        let edit = random_edit(&mut random, &plan.draft());
        let room = random.within(count - 2..=count + 2) as usize;
        tally.note(check_fee(&edit, &plan.root_list(), plan.fee, room));
    }
    if rounds() >= 1_000 {
        let numbers = [0, 2, 3, 6, 7, 8, 9, 11, 13, 14, 15, 17, 18, 19, 20, 22, 25, 26, 27, 28];
        tally.assert_met(&numbers);
    }
}

#[test]
fn sizes() {
    let mut longer = vec![0; MAX_INPUT + 1];
    longer[..4].copy_from_slice(&[0x01, 0x00, 0xbe, 0xef]);
    assert_eq!(check(&longer, &[], 3), refused(1, 0));
    assert_eq!(check(&longer, &[0], 3), refused(1, 0));
    longer.pop();
    assert_eq!(check(&longer, &[0], 3), refused(21, 0));
    assert_eq!(check(&longer, &[], 3), refused(12, 5));
}

/// A table longer than any bundle: a refusal zeroes every byte, an acceptance every byte past the
/// records.
#[test]
fn longer_table() {
    let room = MAX_TRANSACTIONS + 1;
    assert_eq!(check(&[], &[0], room), refused(21, 0));
    let bundle = decode(include_str!("../../tests/data/004-bundle.hex"));
    let root = reference::prove::all_clients(&bundle[5..290]).unwrap();
    assert_eq!(check(&bundle, &root, room).map(|records| records.len()), Ok(2));

    let mut table = vec![FILLED; room];
    assert!(barrowtide::judge_into(&[], &[0], 0, &mut table).is_err());
    assert!(bytes(&table).iter().all(|&byte| byte == 0));
    table.fill(FILLED);
    let judged = barrowtide::judge_into(&bundle, &root, 0, &mut table);
    assert_eq!(judged.map(|judged| judged.transactions), Ok(2));
    assert!(bytes(&table[2..]).iter().all(|&byte| byte == 0));
}
