//! Paths that leave inner nodes out, which are then worked out: the library against the reference,
//! and against the trees that the paths were made from.

mod common;
#[path = "common/met.rs"]
mod met;
#[path = "common/proofs.rs"]
mod proofs;

use barrowtide::{prove_bump, prove_page};
use met::Seen;
use proofs::{check_bump, check_clients, check_cmp, number, stored, Proof};
use reference::climb::beside;
use reference::generate::damage::random_edit;
use reference::generate::path::{Leaf, Plan};
use reference::generate::random::{rounds, Random};
use reference::generate::tally::Tally;
use reference::generate::tree::Tree;
use reference::hex::{expand, show};
use reference::prove;
use reference::refusal::Refusal;
use reference::sha256::join;
use reference::Hash;

#[test]
fn examples() {
    let bump = |example: &str| number(check_bump(&expand(example), &[0xaa; 32]));
    let cmp = |example: &str| number(check_cmp(&expand(example), &[0xaa; 32]));
    let clients = |example: &str| number(check_clients(&expand(example)));
    // Both children written, and one of them missing.
    assert_eq!(bump("00 02 04 00 00 [0a] 01 00 [0b] 02 02 [aa] 03 00 [ab] 00"), 0);
    assert_eq!(bump("00 02 03 00 00 [0a] 02 02 [aa] 03 00 [ab] 00"), 14);
    assert_eq!(bump("00 02 03 01 00 [0b] 02 02 [aa] 03 00 [ab] 00"), 14);
    assert_eq!(cmp("01 00 04 00 [0a] 01 [0b] 02 [aa] 03 [ab]"), 0);
    assert_eq!(cmp("01 00 03 00 [0a] 02 [aa] 03 [ab]"), 14);
    assert_eq!(cmp("01 00 03 01 [0b] 02 [aa] 03 [ab]"), 14);
    // A copy below has the value on its left, if there is one.
    assert_eq!(bump("00 02 04 00 00 [0a] 01 01 02 02 [aa] 03 00 [ab] 00"), 0);
    assert_eq!(bump("00 02 03 01 01 02 02 [aa] 03 00 [ab] 00"), 14);
    // Twins below are not asked about; a worked-out twin of the climb is.
    assert_eq!(bump("00 02 04 00 00 [0a] 01 00 [0a] 02 02 [aa] 03 00 [ab] 00"), 0);
    assert_eq!(clients("00 02 04 00 00 [aa] 01 00 [ab] 02 02 [aa] 03 00 [ab] 00"), 15);
    assert_eq!(clients("00 02 04 00 02 [aa] 01 00 [ab] 02 00 [aa] 03 00 [ab] 00"), 0);
    // A leaf on the climb's own way is surplus.
    assert_eq!(bump("00 02 02 00 02 [aa] 01 00 [ab] 02 00 00 [00] 01 00 [02]"), 0);
}

/// What is written beats what could be worked out, and a copy counts as written.
#[test]
fn written_first() {
    let root = |example: &str| check_bump(&expand(example), &[0xaa; 32]).map(|proof| proof.root);
    let below = "04 00 00 [0a] 01 00 [0b] 02 02 [aa] 03 00 [ab]";
    let own = join(&[0xaa; 32], &[0xab; 32]);
    let worked_out = join(&[0x0a; 32], &[0x0b; 32]);
    assert_eq!(root(&format!("00 02 {below} 00")), Ok(join(&worked_out, &own)));
    let hash = format!("00 02 {below} 01 00 00 [0c]");
    assert_eq!(root(&hash), Ok(join(&[0x0c; 32], &own)));
    // The top sibling is worked out from a node and a copy, which has children of its own.
    let deep = "08 00 00 [0a] 01 00 [0b] 02 00 [0c] 03 00 [0d] 04 02 [aa] 05 00 [ab] \
                06 00 [0e] 07 00 [0f]";
    let right = join(&own, &join(&[0x0e; 32], &[0x0f; 32]));
    let left = join(&worked_out, &worked_out);
    assert_eq!(root(&format!("00 03 {deep} 01 01 01 00")), Ok(join(&left, &right)));
    // On the climb a copy repeats the working hash, whatever is written on its left.
    let climbed = "00 02 02 00 02 [aa] 01 00 [ab] 02 00 00 [07] 01 01";
    assert_eq!(root(climbed), Ok(join(&own, &own)));
}

/// 14 blames the sibling that the climb needs, wherever the gap below it is, and no sibling of a
/// higher layer.
#[test]
fn blamed_siblings() {
    let blamed = |number, layer, sibling| Some(Refusal::of_sibling(number, layer, sibling));
    let bump = |example: &str| check_bump(&expand(example), &[0xaa; 32]).err();
    let clients = |example: &str| check_clients(&expand(example)).err();
    // The top sibling is at (2, 0); it lacks (0, 3), then (0, 0), then all.
    let own = "04 02 [aa] 05 00 [ab] 06 00 [0e] 07 00 [0f]";
    assert_eq!(
        bump(&format!("00 03 07 00 00 [0a] 01 00 [0b] 02 00 [0c] {own} 00 00")),
        blamed(14, 2, 0)
    );
    assert_eq!(bump(&format!("00 03 05 01 00 [0b] {own} 01 01 00 [0d] 00")), blamed(14, 2, 0));
    assert_eq!(bump(&format!("00 03 04 {own} 00 00")), blamed(14, 2, 0));
    // The sibling at (1, 3) lacks (0, 6), and nothing stands for the one above it.
    assert_eq!(bump("00 03 03 04 02 [aa] 05 00 [ab] 07 00 [0f] 00 00"), blamed(14, 1, 3));
    // A worked-out twin.
    let twin = "00 02 04 00 00 [aa] 01 00 [ab] 02 02 [aa] 03 00 [ab] 00";
    assert_eq!(clients(twin), blamed(15, 1, 0));
}

/// Whoever sends the node that each refusal names, ends up with a proof, a layer higher each time.
#[test]
fn missing_nodes_sent() {
    let mut random = Random::of("missing_nodes_sent");
    let mut most = 0;
    for _ in 0..rounds() / 5 {
        let count = random.within(2..=60) as usize;
        let tree = Tree::random(&mut random, count);
        let position = random.index(count) as u64;
        let id = tree.ids()[position as usize];
        let written = random.pick(&[2, 4, 20]);
        let mut plan = Plan::whole(&tree);
        for (level, leaves) in plan.levels.iter_mut().enumerate() {
            leaves.retain(|leaf| (level, leaf.offset) == (0, position) || random.one_in(written));
        }
        let (mut sent, mut next) = (0, 0);
        while let Err(refusal) = check_bump(&plan.bump().bytes, &id) {
            assert_eq!(check_cmp(&plan.cmp().bytes, &id), Err(refusal));
            let Refusal { number, layer, sibling, .. } = refusal;
            assert_eq!((number, sibling), (14, beside(position >> layer)));
            assert!(layer >= next, "layer {layer} after {next}");
            (sent, next) = (sent + 1, layer + 1);
            let hash = tree.hash(layer as usize, sibling);
            plan.levels[layer as usize].push(Leaf { offset: sibling, flags: 0, hash });
        }
        assert_eq!(check_bump(&plan.bump().bytes, &id).map(|p| p.root), Ok(tree.root()));
        most = most.max(sent);
    }
    assert!(rounds() < 1_000 || most > 3);
}

/// Every path of two levels whose leaves are copies or one of three hashes, the third the join of
/// the others.
#[test]
fn every_path_of_two_levels() {
    let (one, other) = ([0xaa; 32], [0xbb; 32]);
    let hashes = [one, other, join(&one, &other)];
    let mut tally = Tally::default();
    for number in 0..8_000 {
        let plan = path_of(number, &hashes);
        let (bump, cmp) = (plan.bump().bytes, plan.cmp().bytes);
        for id in &hashes {
            tally.note(check_bump(&bump, id));
            let _ = check_cmp(&cmp, id);
        }
        tally.note(check_clients(&bump));
    }
    tally.assert_met(&[0, 13, 14, 15, 16]);
}

/// The path of a number: for each of its six places nothing, one of three hashes, or at an odd
/// offset a copy.
fn path_of(mut number: usize, hashes: &[Hash; 3]) -> Plan {
    let mut plan = Plan { block_height: 0, levels: vec![Vec::new(); 2] };
    for (level, offset) in [(0, 0), (0, 1), (0, 2), (0, 3), (1, 0), (1, 1)] {
        let choices = 4 + offset as usize % 2;
        let choice = number % choices;
        number /= choices;
        let hash = hashes[choice % 3];
        let flags = match choice {
            0 => continue,
            4 => 1,
            _ => 2 * u8::from(level == 0),
        };
        plan.levels[level].push(Leaf { offset, flags, hash });
    }
    plan
}

/// Every set of written nodes of small trees: an id that is proved is proved to the tree's root.
#[test]
fn every_set_of_written_nodes() {
    let mut random = Random::of("every_set_of_written_nodes");
    for count in 2..=6 {
        let tree = Tree::random(&mut random, count);
        let whole = Plan::whole(&tree);
        let places: usize = whole.levels.iter().map(Vec::len).sum();
        for set in 0..1u32 << places {
            let mut plan = whole.clone();
            let mut place = 0..;
            for level in &mut plan.levels {
                level.retain(|_| place.next().is_some_and(|place: u32| set >> place & 1 == 1));
            }
            let (bump, cmp) = (plan.bump().bytes, plan.cmp().bytes);
            for id in tree.ids() {
                for answer in [check_bump(&bump, id), check_cmp(&cmp, id)] {
                    assert!(answer.is_err() || answer.unwrap().root == tree.root());
                }
            }
            let clients = check_clients(&bump);
            assert!(clients.is_err() || clients == Ok(tree.root()));
        }
    }
}

/// Sound paths with inner nodes left out prove every client to the tree's root.
#[test]
fn thinned_paths() {
    let mut random = Random::of("thinned_paths");
    for _ in 0..rounds() {
        let count = random.within(2..=60) as usize;
        let tree = Tree::random(&mut random, count);
        let positions: Vec<u64> =
            (0..random.within(1..=6)).map(|_| random.index(count) as u64).collect();
        let mut plan = Plan::of(&tree, &positions);
        plan.thin(&mut random, &tree);
        let layers = tree.height() as u64;
        let (bump, cmp) = (plan.bump().bytes, plan.cmp().bytes);
        assert_eq!(check_clients(&bump), Ok(tree.root()));
        for position in positions {
            let id = tree.ids()[position as usize];
            let proved = Proof { id, position, layers, root: tree.root() };
            assert_eq!(check_bump(&bump, &id), Ok(proved));
            assert_eq!(check_cmp(&cmp, &id), Ok(proved));
            let page = prove_page(&bump, &[barrowtide::Hash::from_stored(id)]).unwrap();
            assert_eq!(page[0].map(stored), Ok(proved));
        }
    }
}

/// Paths of every shape, sound and not, with everything that can come of leaving nodes out.
#[test]
fn grown_paths() {
    let mut random = Random::of("grown_paths");
    let (mut seen, mut tally) = (Seen::default(), Tally::default());
    for _ in 0..rounds() {
        let id = random.hash();
        let mut plan = Plan::grown(&mut random, id);
        match random.within(0..=5) {
            0 => {}
            1 => plan.spoil(&mut random),
            _ => plan.unsettle(&mut random),
        }
        let (bump, cmp) = (plan.bump(), plan.cmp());
        tally.note(check_bump(&bump.bytes, &id));
        tally.note(check_cmp(&cmp.bytes, &id));
        tally.note(check_clients(&bump.bytes));
        let own = barrowtide::Hash::from_stored(id);
        assert_eq!(
            prove_page(&bump.bytes, &[own]).map(|page| page[0]).and_then(|answer| answer),
            prove_bump(&bump.bytes, &own),
            "{}",
            show(&bump.bytes)
        );
        if let Some(path) = plan.path() {
            let clients = plan.levels[0].iter().filter(|leaf| leaf.flags == 2);
            for start in clients.map(|leaf| leaf.offset).chain(prove::start(&path, &id)) {
                seen.see(&path, id, start);
            }
        }
        let _ = check_bump(&random_edit(&mut random, &bump), &id);
        let _ = check_cmp(&random_edit(&mut random, &cmp), &id);
        let _ = check_clients(&random_edit(&mut random, &bump));
    }
    if rounds() >= 1_000 {
        seen.assert_all();
        tally.assert_met(&[0, 13, 14, 15]);
    }
}

/// Levels of many leaves, in which a search may take a short way: offsets rising, but for one leaf,
/// or in no order, with gaps between them.
#[test]
fn large_levels() {
    let mut random = Random::of("large_levels");
    let mut tally = Tally::default();
    for _ in 0..rounds() / 20 {
        let count = random.within(100..=1_024) as usize;
        let tree = Tree::random(&mut random, count);
        let mut plan = Plan::whole(&tree);
        let ground = random.pick(&[300, 3_000, 30_000]);
        for (level, leaves) in plan.levels.iter_mut().enumerate() {
            let written = random.pick(&[2, 4, 9]);
            leaves.retain(|_| match level {
                0 => !random.one_in(ground),
                _ => random.one_in(written),
            });
            match random.within(0..=3) {
                0 => random.shuffle(leaves),
                1 if !leaves.is_empty() => {
                    let (one, other) = (random.index(leaves.len()), random.index(leaves.len()));
                    leaves.swap(one, other);
                }
                _ => {}
            }
        }
        let (bump, cmp) = (plan.bump().bytes, plan.cmp().bytes);
        for _ in 0..4 {
            let id = tree.ids()[random.index(count)];
            for answer in [check_bump(&bump, &id), check_cmp(&cmp, &id)] {
                assert!(answer.is_err() || answer.unwrap().root == tree.root());
                tally.note(answer);
            }
        }
    }
    if rounds() >= 1_000 {
        tally.assert_met(&[0, 14]);
    }
}

/// Leaves that a climb does not ask about may be left out, changed or added: its answer stays.
#[test]
fn other_leaves_are_ignored() {
    let mut random = Random::of("other_leaves_are_ignored");
    for _ in 0..rounds() {
        let id = random.hash();
        let mut plan = Plan::grown(&mut random, id);
        if random.one_in(3) {
            plan.cut(&mut random);
        }
        let told = check_bump(&plan.bump().bytes, &id);
        let Some(client) = plan.levels[0].iter().find(|leaf| leaf.hash == id).copied() else {
            continue;
        };
        let asked = plan.asked(id, client.offset);
        let height = plan.levels.len();
        for level in 0..height {
            let own = (0, client.offset);
            let kept = |leaf: &Leaf| {
                let place = (level, leaf.offset);
                asked.contains(&place) || place == own
            };
            plan.levels[level].retain(|leaf| kept(leaf) || random.one_in(2));
            for leaf in &mut plan.levels[level] {
                if !kept(leaf) && random.one_in(2) {
                    leaf.hash = random.hash();
                }
            }
            let offset = random.bits() >> (64 - (height - level));
            let leaf = Leaf { offset, flags: offset as u8 & 1, hash: random.hash() };
            if !kept(&leaf) && plan.leaf(level, offset).is_none() {
                plan.levels[level].push(leaf);
            }
        }
        assert_eq!(check_bump(&plan.bump().bytes, &id), told);
    }
}

/// Trees of 64 layers that no one could work out twice: copies of copies, and paths that end in
/// nothing.
#[test]
fn tall_paths() {
    let (id, position) = ([0xaa; 32], 1 << 63);
    let mut plan = Plan::copies(id);
    let copied = |hash| (0..63).fold(hash, |hash, _| join(&hash, &hash));
    let proof = check_bump(&plan.bump().bytes, &id).expect("a sound path");
    assert_eq!(proof.root, join(&copied([0xbb; 32]), &copied(id)));
    assert_eq!(check_cmp(&plan.cmp().bytes, &id).map(|proof| proof.position), Ok(position));
    plan.levels[0].remove(0);
    let missing = |layer, sibling| Err(Refusal::of_sibling(14, layer, sibling));
    assert_eq!(check_bump(&plan.bump().bytes, &id), missing(63, 0));
    assert_eq!(check_cmp(&plan.cmp().bytes, &id), missing(63, 0));
    // Every sibling but the lowest is far above what is written.
    plan.levels[1..].iter_mut().for_each(Vec::clear);
    assert_eq!(check_bump(&plan.bump().bytes, &id), missing(1, (position >> 1) + 1));
}

/// Many clients of one path, whose siblings are the same again and again, and sometimes are not:
/// the check of all of them, and of some.
#[test]
fn many_clients() {
    let mut random = Random::of("many_clients");
    let mut tally = Tally::default();
    for _ in 0..rounds() {
        let mut plan = Plan::merged(&mut random, 40);
        tally.note(check_clients(&plan.bump().bytes));
        for leaf in &mut plan.levels[0] {
            if leaf.flags == 2 && random.one_in(3) {
                leaf.flags = 0;
            }
        }
        tally.note(check_clients(&plan.bump().bytes));
        let _ = check_clients(&random_edit(&mut random, &plan.bump()));
    }
    if rounds() >= 1_000 {
        tally.assert_met(&[0, 13, 14, 15, 16]);
    }
}

/// As many clients as a level holds, and nothing else.
#[test]
fn clients_alone() {
    let mut random = Random::of("clients_alone");
    for count in [64, 128, 1_024] {
        let tree = Tree::random(&mut random, count);
        let all: Vec<u64> = (0..count as u64).collect();
        let mut plan = Plan::of(&tree, &all);
        plan.levels[1..].iter_mut().for_each(Vec::clear);
        random.shuffle(&mut plan.levels[0]);
        for position in [0, 1, count / 2, count - 2, count - 1] {
            let id = tree.ids()[position];
            let root = Ok(tree.root());
            assert_eq!(check_bump(&plan.bump().bytes, &id).map(|proof| proof.root), root);
            assert_eq!(check_cmp(&plan.cmp().bytes, &id).map(|proof| proof.root), root);
        }
        if count <= 128 {
            assert_eq!(check_clients(&plan.bump().bytes), Ok(tree.root()));
        }
        // In rising order no sibling is worked out twice, and the reference is not asked.
        plan.levels[0].sort_by_key(|leaf| leaf.offset);
        let root = barrowtide::check_clients(&plan.bump().bytes).expect("sound clients");
        assert_eq!(root.stored(), &tree.root());
    }
}
