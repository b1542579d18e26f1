//! Hash work, counted: the library against the reference, and against what 02 says in numbers.

mod common;
#[path = "common/judging.rs"]
mod judging;

use barrowtide::Record;
use judging::judged;
use reference::climb::beside;
use reference::generate::bundle::Plan;
use reference::generate::damage::random_edit;
use reference::generate::path::{self, Leaf};
use reference::generate::random::{rounds, Random};
use reference::generate::tally::Tally;
use reference::generate::transaction;
use reference::generate::tree::Tree;
use reference::hex::{decode, encode, expand};
use reference::refusal::Refusal;
use reference::sha256::{join, sha256d};
use reference::work::{of_transaction, JOIN};
use reference::Hash;

type Answer = Result<Vec<Record>, Refusal>;

/// Judges a plan with room enough: the answer and the work.
fn judged_plan(plan: &Plan) -> (Answer, u64) {
    judged(&plan.draft().bytes, &plan.root_list(), plan.fee, plan.entries.len())
}

/// The number of the answer, or 0, and the work.
fn told((answer, work): (Answer, u64)) -> (u32, u64) {
    (answer.map_or_else(|refusal| refusal.number, |_| 0), work)
}

/// What the ids of a plan's transactions cost.
fn ids_work(plan: &Plan) -> u64 {
    let length = |entry: &(transaction::Plan, Option<u64>)| entry.0.draft().bytes.len();
    plan.entries.iter().map(length).map(of_transaction).sum()
}

/// A bundle of transactions that all name one BUMP.
fn mined(transactions: Vec<transaction::Plan>, bump: path::Plan, roots: Vec<Hash>) -> Plan {
    let entries = transactions.into_iter().map(|own| (own, Some(0))).collect();
    Plan { bumps: vec![bump], entries, roots, fee: 0 }
}

/// 02: "31 for 004's".
#[test]
fn published_bundle() {
    let bundle = decode(include_str!("../../tests/data/004-bundle.hex"));
    let root = reference::prove::all_clients(&bundle[5..290]).unwrap();
    let judge = |roots: &[u8], fee, room| told(judged(&bundle, roots, fee, room));
    assert_eq!(judge(&root, 0, 2), (0, 31));
    assert_eq!(judge(&root, 2, 9), (28, 31));
    assert_eq!(judge(&[], 0, 2), (17, 31));
    assert_eq!(judge(&root[1..], 0, 2), (21, 0));
    assert_eq!(judge(&root, 0, 1), (22, 0));
    let mut longer = bundle.clone();
    longer.push(0);
    assert_eq!(told(judged(&longer, &root, 0, 2)), (9, 0));
    longer.resize(barrowtide::MAX_INPUT + 1, 0);
    assert_eq!(told(judged(&longer, &root[1..], 0, 2)), (1, 0));
}

/// A transaction of 60 bytes, and one with a script of so many.
const T60: &str = "01 00 00 00 01 [aa] 00 00 00 00 00 ff{4} 01 e8 03 00{6} 00 00{4}";

fn scripted(length: usize) -> Vec<u8> {
    let script = format!("{length:02x} 51{{{length}}}");
    expand(&format!("01 00 00 00 01 [aa] 00 00 00 00 {script} ff{{4}} 01 e8 03 00{{6}} 00 00{{4}}"))
}

#[test]
fn examples() {
    let id = sha256d(&expand(T60));
    let (hex, root) = (encode(&id), join(&id, &[0xbb; 32]));
    let judge = |text: &str, roots: &[u8], room| {
        let text = text.replace("HEAD", "01 00 be ef 01 00");
        let text = text.replace("I60", &hex).replace("T60", T60).replace("ROOT", &encode(&root));
        told(judged(&expand(&text), roots, 0, room))
    };
    let pair = "HEAD 01 02 00 02 I60 01 00 [bb] 01 T60 01 00";
    assert_eq!(judge(pair, &root, 1), (0, 6));
    assert_eq!(judge(pair, &[], 1), (17, 6));
    assert_eq!(judge(pair, &[], 0), (22, 0));
    assert_eq!(judge("HEAD 01 00 01 T60 01 00", &[], 1), (13, 3));
    assert_eq!(judge("HEAD 01 00 01 T60 00", &[], 1), (20, 3));
    // 14 and 15 at layer 1.
    let own = "02 02 02 02 I60 03 00 [bb]";
    assert_eq!(judge(&format!("HEAD {own} 00 01 T60 01 00"), &[], 1), (14, 6));
    assert_eq!(judge(&format!("HEAD {own} 01 00 00 ROOT 01 T60 01 00"), &[], 1), (15, 6));
    // The top sibling can be had in part, which is none, or in all: three joins.
    let own = "04 02 I60 05 00 [bb] 01 03 00 [cc] 00 01 T60 01 00";
    assert_eq!(judge(&format!("HEAD 03 04 00 00 [0a] 01 00 [0b] {own}"), &[], 1), (14, 9));
    let below = "06 00 00 [0a] 01 00 [0b] 02 00 [0c] 03 00 [0d]";
    assert_eq!(judge(&format!("HEAD 03 {below} {own}"), &[], 1), (17, 21));
    // The second transaction is the first again: its climb is not made.
    let twice = "HEAD 01 02 00 02 I60 01 00 [bb] 02 T60 01 00 T60 01 00";
    assert_eq!(judge(twice, &root, 2), (19, 9));
}

/// Lengths about the ends of SHA-256's blocks, alone and beside others.
#[test]
fn lengths() {
    let mut all = expand("01 00 be ef 00 fc");
    let mut sum = 0;
    for script in (0..253).filter(|length| *length != 4) {
        let raw = scripted(script);
        let work = of_transaction(raw.len());
        let bundle = [&expand("01 00 be ef 00 01")[..], &raw, &[0]].concat();
        assert_eq!(told(judged(&bundle, &[], 0, 1)), (20, work));
        all.extend([&raw[..], &[0]].concat());
        sum += work;
    }
    assert_eq!(told(judged(&all, &[], 0, 256)), (20, sum));
}

/// 02: "With all siblings written, an accepted bundle costs exactly its transactions' sum plus 3 per
/// layer of each anchored climb, and a refusal in judging no more than that".
#[test]
fn written_siblings() {
    let mut random = Random::of("written_siblings");
    let mut tally = Tally::default();
    for _ in 0..rounds() / 4 {
        let count = random.within(1..=6) as usize;
        let own: Vec<_> = (0..count).map(|_| transaction::Plan::mined(&mut random)).collect();
        let mut ids: Vec<Hash> = own.iter().map(transaction::Plan::id).collect();
        ids.resize_with(count + random.within(1..=40) as usize, || random.hash());
        random.shuffle(&mut ids);
        let tree = Tree::new(ids);
        let place = |id| tree.ids().iter().position(|other| *other == id).expect("an id") as u64;
        let positions: Vec<u64> = own.iter().map(|own| place(own.id())).collect();
        let plan = mined(own, path::Plan::of(&tree, &positions), vec![tree.root()]);
        let most = ids_work(&plan) + JOIN * (count * tree.height()) as u64;
        assert_eq!(told(judged_plan(&plan)), (0, most));

        let mut worse = plan.clone();
        let one = random.index(count);
        match random.within(0..=4) {
            0 => worse.entries.push(worse.entries[one].clone()),
            1 => worse.roots.clear(),
            2 => worse.entries[one].0.lock_time ^= 1,
            3 => worse.entries[one].1 = None,
            _ => {
                let layer = random.index(tree.height());
                twin(&mut worse.bumps[0], &tree, positions[one], layer);
            }
        }
        let ids = ids_work(&worse);
        let (answer, work) = judged_plan(&worse);
        assert!((ids..=ids + JOIN * (count * tree.height()) as u64).contains(&work), "{work}");
        tally.note(answer);
    }
    if rounds() >= 1_000 {
        tally.assert_met(&[13, 15, 17, 19, 20]);
    }
}

/// Writes the working hash of a climb as its sibling at a layer.
fn twin(bump: &mut path::Plan, tree: &Tree, position: u64, layer: usize) {
    let (own, sibling) = (position >> layer, beside(position >> layer));
    bump.levels[layer].retain(|leaf| leaf.offset != sibling);
    let hash = tree.hash(layer, own);
    bump.levels[layer].push(Leaf { offset: sibling, flags: 0, hash });
}

/// A sibling that two climbs ask for counts in each, though it is made once.
#[test]
fn shared_siblings() {
    let mut random = Random::of("shared_siblings");
    let own: Vec<_> = (0..4).map(|_| transaction::Plan::mined(&mut random)).collect();
    let mut ids: Vec<Hash> = own.iter().map(transaction::Plan::id).collect();
    ids.resize_with(8, || random.hash());
    let tree = Tree::new(ids);
    let mut bump = path::Plan::whole(&tree);
    bump.levels[1..].iter_mut().for_each(Vec::clear);
    let plan = mined(own, bump, vec![tree.root()]);
    // Of eight ids and no inner node each climb makes all seven joins.
    assert_eq!(told(judged_plan(&plan)), (0, ids_work(&plan) + 4 * 7 * JOIN));
}

/// Climbs refused at each layer, by a sibling that is not there, that lacks a leaf below it, or that
/// is a twin; in paths that leave inner nodes out.
#[test]
fn refused_at_each_layer() {
    let mut random = Random::of("refused_at_each_layer");
    let mut tally = Tally::default();
    for height in 1..=7 {
        for layer in (0..height).cycle().take(height * (rounds() / 100 + 1) as usize) {
            let own = transaction::Plan::mined(&mut random);
            let mut ids: Vec<Hash> = (0..1 << height).map(|_| random.hash()).collect();
            // Odd at that layer, where a twin is refused.
            let position = random.index(ids.len()) | 1 << layer;
            ids[position] = own.id();
            let tree = Tree::new(ids);
            let mut bump = path::Plan::whole(&tree);
            bump.thin(&mut random, &tree);
            for bump in spoilt_at(&mut random, bump, &tree, position as u64, layer) {
                let plan = mined(vec![own.clone()], bump, Vec::new());
                let (answer, work) = judged_plan(&plan);
                assert!(work >= ids_work(&plan));
                tally.note(answer);
            }
        }
    }
    if rounds() >= 1_000 {
        tally.assert_met(&[14, 15, 17]);
    }
}

/// The path without the sibling at a layer, so that it is worked out; also without a leaf, perhaps
/// below it, and without all that lies below it; and with the working hash in its place.
fn spoilt_at(
    random: &mut Random,
    bump: path::Plan,
    tree: &Tree,
    position: u64,
    layer: usize,
) -> Vec<path::Plan> {
    let sibling = beside(position >> layer);
    let mut equal = bump.clone();
    twin(&mut equal, tree, position, layer);
    let mut missing = bump;
    missing.levels[layer].retain(|leaf| leaf.offset != sibling);
    let (mut part, mut none) = (missing.clone(), missing.clone());
    part.cut(random);
    for (level, leaves) in none.levels[..layer].iter_mut().enumerate() {
        leaves.retain(|leaf| leaf.offset >> (layer - level) != sibling);
    }
    vec![missing, part, none, equal]
}

/// Every set of written nodes of small trees, from every position.
#[test]
fn every_set_of_written_nodes() {
    let mut random = Random::of("every_set_of_written_nodes");
    let mut tally = Tally::default();
    for count in 2..=5 {
        for position in 0..count {
            let own = transaction::Plan::mined(&mut random);
            let mut ids: Vec<Hash> = (0..count).map(|_| random.hash()).collect();
            ids[position] = own.id();
            let tree = Tree::new(ids);
            let whole = path::Plan::whole(&tree);
            let places: usize = whole.levels.iter().map(Vec::len).sum();
            for set in 0..1u32 << places {
                let mut bump = whole.clone();
                let mut place = 0..;
                for level in &mut bump.levels {
                    level.retain(|_| place.next().is_some_and(|place: u32| set >> place & 1 == 1));
                }
                let plan = mined(vec![own.clone()], bump, vec![tree.root()]);
                tally.note(judged_plan(&plan).0);
            }
        }
    }
    tally.assert_met(&[0, 13, 14]);
}

/// Every path of two levels whose leaves are copies or one of three hashes, the third the join of
/// the others; the first is the transaction's.
#[test]
fn every_path_of_two_levels() {
    let own = expand(T60);
    let (id, other) = (sha256d(&own), [0xbb; 32]);
    let hashes = [id, other, join(&id, &other)];
    let mut tally = Tally::default();
    for number in 0..8_000 {
        let bump = path_of(number, &hashes).bump().bytes;
        let bundle = [&[0x01, 0x00, 0xbe, 0xef, 1][..], &bump, &[1], &own, &[1, 0]].concat();
        tally.note(judged(&bundle, &hashes[2], 0, 1).0);
    }
    tally.assert_met(&[13, 14, 15, 17]);
}

/// The path of a number: for each of its six places nothing, one of three hashes, or at an odd
/// offset a copy.
fn path_of(mut number: usize, hashes: &[Hash; 3]) -> path::Plan {
    let mut plan = path::Plan { block_height: 0, levels: vec![Vec::new(); 2] };
    for (level, offset) in [(0, 0), (0, 1), (0, 2), (0, 3), (1, 0), (1, 1)] {
        let choices = 4 + offset as usize % 2;
        let choice = number % choices;
        number /= choices;
        if choice > 0 {
            let hash = hashes[choice % 3];
            plan.levels[level].push(Leaf { offset, flags: u8::from(choice == 4), hash });
        }
    }
    plan
}

/// 64 layers of copies: the top sibling is worked out through 63 of them.
#[test]
fn tall_paths() {
    let own = transaction::Plan::mined(&mut Random::of("tall_paths"));
    let plan = mined(vec![own.clone()], path::Plan::copies(own.id()), Vec::new());
    let ids = ids_work(&plan);
    assert_eq!(told(judged_plan(&plan)), (17, ids + (64 + 63) * JOIN));
    let mut gap = plan.clone();
    gap.bumps[0].levels[0].remove(0);
    assert_eq!(told(judged_plan(&gap)), (14, ids + 63 * JOIN));
}

/// Transactions of one block or of paths of no block, with inner nodes left out, and with changes by
/// which worked-out values are lost or become others.
#[test]
fn random_paths() {
    let mut random = Random::of("random_paths");
    let mut tally = Tally::default();
    for _ in 0..rounds() {
        let count = random.within(1..=9) as usize;
        let own: Vec<_> = (0..count).map(|_| transaction::Plan::mined(&mut random)).collect();
        let mut plan = if random.one_in(3) {
            let bump = path::Plan::grown(&mut random, own[0].id());
            mined(own, bump, Vec::new())
        } else {
            of_one_block(&mut random, own)
        };
        for _ in 0..random.within(0..=3) {
            match random.within(0..=4) {
                0 => plan.bumps[0].spoil(&mut random),
                1 => plan.spoil(&mut random),
                _ => plan.bumps[0].unsettle(&mut random),
            }
        }
        tally.note(judged_plan(&plan).0);
        if random.one_in(4) {
            let edit = random_edit(&mut random, &plan.draft());
            tally.note(judged(&edit, &plan.root_list(), plan.fee, plan.entries.len()).0);
        }
    }
    if rounds() >= 1_000 {
        tally.assert_met(&[0, 13, 14, 15, 17, 19, 20]);
    }
}

/// A block that holds these transactions, with inner nodes left out.
fn of_one_block(random: &mut Random, own: Vec<transaction::Plan>) -> Plan {
    let mut ids: Vec<Hash> = own.iter().map(transaction::Plan::id).collect();
    ids.resize_with(own.len() + random.within(1..=60) as usize, || random.hash());
    random.shuffle(&mut ids);
    let tree = Tree::new(ids);
    let mut bump = path::Plan::whole(&tree);
    if random.one_in(3) {
        bump.levels[1..].iter_mut().for_each(Vec::clear);
    } else {
        bump.thin(random, &tree);
    }
    if random.one_in(2) {
        bump.levels.iter_mut().for_each(|level| random.shuffle(level));
    }
    mined(own, bump, vec![tree.root()])
}
