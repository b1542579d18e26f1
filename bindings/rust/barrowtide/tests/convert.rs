//! To and from TSC proofs: the library against the reference, lent room included; what is written
//! is proved again and turned back.

mod common;

use std::fmt;

use barrowtide::ffi::{self, Blame};
use barrowtide::{check_clients, prove_bump, prove_tsc, read_bump, read_tsc, write_bump};
use barrowtide::{Bump, Tsc, BUMP_TO_TSC_ROOM, MAX_INPUT, TSC_TO_BUMP_ROOM};
use common::{expected, plain, FILL, GUARDED};
use reference::convert;
use reference::generate::damage::{field_edits, random_edit, truncations};
use reference::generate::path::Plan;
use reference::generate::random::{rounds, Random};
use reference::generate::tally::Tally;
use reference::generate::tree::Tree;
use reference::generate::{transaction, tsc};
use reference::hex::{encode, expand, show};
use reference::refusal::Refusal;
use reference::sha256::join;
use reference::Hash;

type Answer = Result<Vec<u8>, Refusal>;

fn from_stored(id: &Hash) -> barrowtide::Hash {
    barrowtide::Hash::from_stored(*id)
}

fn all_stored(ids: &[Hash]) -> Vec<barrowtide::Hash> {
    ids.iter().map(from_stored).collect()
}

/// A call.
#[derive(Clone, Copy)]
enum Turn<'a> {
    /// A TSC proof into a BUMP of this block height.
    ToBump(&'a [u8], u32),
    /// An id's climb in a BUMP into a TSC proof.
    ToTsc(&'a [u8], &'a Hash),
}

impl Turn<'_> {
    /// What the reference says, for a room of so many bytes.
    fn told(self, room: usize) -> Answer {
        match self {
            Turn::ToBump(data, block_height) => convert::tsc_to_bump(data, block_height, room),
            Turn::ToTsc(data, id) => convert::bump_to_tsc(data, id, room),
        }
    }

    /// The library's C call.
    fn call(self, out: &mut [u8], blame: &mut Blame, written: &mut u64) -> u32 {
        match self {
            Turn::ToBump(data, height) => ffi::tsc_to_bump(data, height, out, blame, written),
            Turn::ToTsc(data, id) => ffi::bump_to_tsc(data, id, out, blame, written),
        }
    }

    /// The crate's call with lent room.
    fn into(self, out: &mut [u8]) -> Result<usize, Refusal> {
        match self {
            Turn::ToBump(data, height) => barrowtide::tsc_to_bump_into(data, height, out),
            Turn::ToTsc(data, id) => barrowtide::bump_to_tsc_into(data, &from_stored(id), out),
        }
        .map_err(plain)
    }

    /// The crate's call without.
    fn whole(self) -> Answer {
        match self {
            Turn::ToBump(data, height) => barrowtide::tsc_to_bump(data, height),
            Turn::ToTsc(data, id) => barrowtide::bump_to_tsc(data, &from_stored(id)),
        }
        .map_err(plain)
    }
}

impl fmt::Display for Turn<'_> {
    fn fmt(&self, f: &mut fmt::Formatter<'_>) -> fmt::Result {
        match self {
            Turn::ToBump(data, height) => write!(f, "TSC to BUMP {height}: {}", show(data)),
            Turn::ToTsc(data, id) => write!(f, "BUMP to TSC of {}: {}", encode(*id), show(data)),
        }
    }
}

/// Bytes before and after the room lent.
const EDGE: usize = 24;

/// Compares the answer, and every byte of a room of this size and of what lies about it.
fn check_room(turn: Turn, room: usize) -> Answer {
    let told = turn.told(room);
    let length = told.as_ref().map(Vec::len).map_err(|refusal| *refusal);
    let before: Vec<u8> = (0..room + 2 * EDGE).map(|place| place as u8 ^ 0xa5).collect();
    let lent = EDGE..EDGE + room;
    let mut left = before.clone();
    if let Ok(bytes) = &told {
        left[lent.clone()][..bytes.len()].copy_from_slice(bytes);
    }

    let (mut guarded, mut written, mut out) = (GUARDED, FILL, before.clone());
    let number = turn.call(&mut out[lent.clone()], &mut guarded.blame, &mut written);
    let length_told = length.map(|length| length as u64);
    assert_eq!((number, guarded, written), expected(length_told, FILL), "{turn}; room {room}");
    assert!(out == left, "{turn}; room {room}; left {}", show(&out));

    let mut out = before;
    assert_eq!(turn.into(&mut out[lent]), length, "{turn}; room {room}");
    assert!(out == left, "{turn}; room {room}; left {}", show(&out));
    told
}

/// Compares the answers for rooms that are enough or short.
fn check(turn: Turn) -> Answer {
    let whole = turn.whole();
    let needed = whole.as_ref().map_or(80, Vec::len);
    let short = whole.as_ref().map_or_else(|refusal| *refusal, |_| Refusal::new(22, 0));
    for room in [0, needed - 1] {
        assert_eq!(check_room(turn, room), Err(short));
    }
    for room in [needed, needed + 33] {
        assert_eq!(check_room(turn, room), whole);
    }
    whole
}

/// Compares what becomes of a TSC proof: the refusal that proving gives, 4 at the node count, or a
/// BUMP that proves the same and, turned back, is the same proof if that had id and root.
fn to_bump(data: &[u8], block_height: u32) -> Answer {
    let answer = check(Turn::ToBump(data, block_height));
    let proof = match prove_tsc(data) {
        Err(refusal) => {
            assert_eq!(answer, Err(plain(refusal)), "{}", show(data));
            return answer;
        }
        // With no nodes the count is the last byte.
        Ok(proof) if proof.layers == 0 => {
            assert_eq!(answer, refused(4, data.len() as u64 - 1), "{}", show(data));
            return answer;
        }
        Ok(proof) => proof,
    };
    let bump = answer.as_ref().expect("an accepted proof");
    let tree_height = proof.layers;
    let read = Bump { block_height: u64::from(block_height), tree_height, leaves: tree_height + 1 };
    assert_eq!(read_bump(bump), Ok(read), "{}", show(data));
    assert_eq!(prove_bump(bump, &proof.id), Ok(proof), "{}", show(data));
    assert_eq!(check_clients(bump), Ok(proof.root), "{}", show(data));
    let back = check(Turn::ToTsc(bump, proof.id.stored())).expect("an accepted proof");
    assert_eq!(prove_tsc(&back), Ok(proof), "{}", show(data));
    assert!(data[0] != 4 || back == data, "{}; back {}", show(data), show(&back));
    answer
}

/// Compares what becomes of an id's climb in a BUMP: the refusal that proving gives, or a TSC proof
/// that proves the same, also if turned back and once more.
fn to_tsc(data: &[u8], id: &Hash) -> Answer {
    let answer = check(Turn::ToTsc(data, id));
    let proof = match prove_bump(data, &from_stored(id)) {
        Err(refusal) => {
            assert_eq!(answer, Err(plain(refusal)), "{}", show(data));
            return answer;
        }
        Ok(proof) => proof,
    };
    let made = answer.as_ref().expect("an accepted proof");
    let read = Tsc { flags: 4, index: proof.position, nodes: proof.layers };
    assert_eq!(read_tsc(made), Ok(read), "{}", show(data));
    assert_eq!(prove_tsc(made), Ok(proof), "{}", show(data));
    let block_height = read_bump(data).expect("a BUMP").block_height as u32;
    let back = check(Turn::ToBump(made, block_height)).expect("an accepted proof");
    assert_eq!(prove_bump(&back, &from_stored(id)), Ok(proof), "{}", show(data));
    assert_eq!(Turn::ToTsc(&back, id).whole().as_ref(), Ok(made), "{}", show(data));
    answer
}

fn refused(number: u32, carried: u64) -> Answer {
    Err(Refusal::new(number, carried))
}

/// 14 or 15.
fn blamed(number: u32, layer: u64, sibling: u64) -> Answer {
    Err(Refusal::of_sibling(number, layer, sibling))
}

fn bytes(example: &str) -> Answer {
    Ok(expand(example))
}

/// The hex of a parent.
fn parent(left: &Hash, right: &Hash) -> String {
    encode(&join(left, right))
}

#[test]
fn bump_examples() {
    let answer = |example: &str| to_bump(&expand(example), 1);
    let room = |example: &str, room| check_room(Turn::ToBump(&expand(example), 1), room);
    assert_eq!(room("04 00 [aa] [aa] 00", 0), refused(4, 66));
    assert_eq!(room("04 00 [aa] [ab] 00", 0), refused(16, 0));
    assert_eq!(room("00 01 [aa] [ab] 01 00 [bb]", 70), refused(22, 0));
    let bump = bytes("01 01 02 00 00 [bb] 01 02 [aa]");
    assert_eq!(room("00 01 [aa] [ab] 01 00 [bb]", 71), bump);
    // The client stands on either side, beside a hash or a copy.
    assert_eq!(answer("00 00 [aa] [ab] 01 00 [bb]"), bytes("01 01 02 00 02 [aa] 01 00 [bb]"));
    assert_eq!(answer("00 00 [aa] [ab] 01 01"), bytes("01 01 02 00 02 [aa] 01 01"));
    // A hash that equals the working hash stays a hash.
    assert_eq!(answer("00 00 [aa] [ab] 01 00 [aa]"), bytes("01 01 02 00 02 [aa] 01 00 [aa]"));
    // A copy above a hash, and a hash above a copy.
    let copy_above = "01 02 02 00 00 [bb] 01 02 [aa] 01 01 01";
    assert_eq!(answer("00 01 [aa] [ab] 02 00 [bb] 01"), bytes(copy_above));
    let hash_above = "01 02 02 02 02 [aa] 03 01 01 00 00 [bb]";
    assert_eq!(answer("00 02 [aa] [ab] 02 01 00 [bb]"), bytes(hash_above));
    // Twins, and copies on the left.
    assert_eq!(answer("00 01 [aa] [bb] 01 01"), blamed(15, 0, 0));
    assert_eq!(answer("04 01 [aa] [bb] 01 00 [aa]"), blamed(15, 0, 0));
    assert_eq!(answer("04 07 [aa] [bb] 03 00 [cc] 01 01"), blamed(15, 1, 2));
    // A header as target.
    let root = parent(&[0xaa; 32], &[0xbb; 32]);
    let header = format!("02 00 [aa] 11{{36}} {root} 22{{12}} 01 00 [bb]");
    assert_eq!(answer(&header), bytes("01 01 02 00 02 [aa] 01 00 [bb]"));
    assert_eq!(answer("02 00 [aa] 11{36} [cc] 22{12} 01 00 [bb]"), refused(16, 0));
    assert_eq!(answer("02 00 [aa] 11{36} [aa] 22{12} 00"), refused(4, 114));
}

#[test]
fn tsc_examples() {
    let answer = |example: &str| to_tsc(&expand(example), &[0xaa; 32]);
    // The id at two offsets: the least one, in whatever order they are written.
    let root = parent(&[0xaa; 32], &[0xaa; 32]);
    let equal = format!("04 00 [aa] {root} 01 00 [aa]");
    assert_eq!(answer("01 01 02 00 02 [aa] 01 00 [aa]"), bytes(&equal));
    assert_eq!(answer("01 01 02 01 02 [aa] 00 00 [aa]"), bytes(&equal));
    // A copy; a client's leaf as sibling.
    let copied = format!("04 00 [aa] {root} 01 01");
    assert_eq!(answer("01 01 02 00 00 [aa] 01 01"), bytes(&copied));
    let root = parent(&[0xbb; 32], &[0xaa; 32]);
    let clients = format!("04 01 [aa] {root} 01 00 [bb]");
    assert_eq!(answer("01 01 02 01 02 [aa] 00 02 [bb]"), bytes(&clients));
    // Siblings that are worked out, of hashes and of a hash and its copy.
    let own = join(&[0xaa; 32], &[0xab; 32]);
    let values = [
        ("00 00 [0a] 01 00 [0b]", join(&[0x0a; 32], &[0x0b; 32])),
        ("00 00 [0a] 01 01", join(&[0x0a; 32], &[0x0a; 32])),
    ];
    for (below, value) in values {
        let proof = format!("04 02 [aa] {} 02 00 [ab] 00 {}", parent(&value, &own), encode(&value));
        let bump = format!("00 02 04 {below} 02 02 [aa] 03 00 [ab] 00");
        assert_eq!(answer(&bump), bytes(&proof));
    }
    // On the climb a copy is one, whatever is written on its left.
    let root = parent(&own, &own);
    let climbed = format!("04 00 [aa] {root} 02 00 [ab] 01");
    assert_eq!(answer("00 02 02 00 02 [aa] 01 00 [ab] 02 00 00 [07] 01 01"), bytes(&climbed));
    // 13, 14 and 15.
    assert_eq!(answer("00 01 00"), refused(13, 0));
    assert_eq!(answer("00 02 01 02 02 [aa] 00"), blamed(14, 0, 3));
    assert_eq!(answer("00 02 03 01 01 02 02 [aa] 03 00 [ab] 00"), blamed(14, 1, 0));
    let twin = format!("00 02 02 02 02 [aa] 03 00 [ab] 01 00 00 {}", encode(&own));
    assert_eq!(answer(&twin), blamed(15, 1, 0));
}

/// Of several faults at once the first in order is told: reading's, the climb's, 4, 22.
#[test]
fn order_of_refusals() {
    let to_bump = |example: &str| check_room(Turn::ToBump(&expand(example), 1), 0);
    // A fault in reading with a twin, another root and no nodes.
    assert_eq!(to_bump("06 00 [aa] [ab] 00"), refused(7, 0));
    assert_eq!(to_bump("04 00 [aa] [ab] 00 00"), refused(9, 67));
    assert_eq!(to_bump("04 01 [aa] [ab] 00"), refused(6, 1));
    assert_eq!(to_bump("04 01 [aa] [ab] 01 00 [aa] 00"), refused(9, 100));
    // A twin and another root; another root and no nodes.
    assert_eq!(to_bump("04 01 [aa] [ab] 01 00 [aa]"), blamed(15, 0, 0));
    assert_eq!(to_bump("04 00 [aa] [ab] 01 01"), refused(16, 0));
    assert_eq!(to_bump("02 00 [aa] 11{36} [ab] 22{12} 00"), refused(16, 0));
    assert_eq!(to_bump("00 00 [aa] [ab] 00"), refused(4, 66));
    assert_eq!(to_bump("00 00 [aa] [ab] 01 01"), refused(22, 0));

    let to_tsc = |example: &str| check_room(Turn::ToTsc(&expand(example), &[0xaa; 32]), 0);
    assert_eq!(to_tsc("00 00"), refused(4, 1));
    assert_eq!(to_tsc("00 01 00 00"), refused(9, 3));
    assert_eq!(to_tsc("00 01 00"), refused(13, 0));
    assert_eq!(to_tsc("00 01 01 00 02 [aa]"), blamed(14, 0, 1));
    // Twins at layers 1 and 2, and nothing at layer 3.
    let own = join(&[0xab; 32], &[0xaa; 32]);
    let twice = join(&own, &own);
    let levels = format!("01 06 00 {} 01 02 00 {} 00", encode(&own), encode(&twice));
    let bump = format!("00 04 02 0e 00 [ab] 0f 02 [aa] {levels}");
    assert_eq!(to_tsc(&bump), blamed(15, 1, 6));
    assert_eq!(to_tsc("00 01 02 00 02 [aa] 01 01"), refused(22, 0));
}

/// Every id of trees of every small size, in every way to write its TSC proof. The BUMP is the one
/// that is written of the block's ids; and of the BUMP of the whole block, whose inner nodes are
/// left out, comes the TSC proof of each id.
#[test]
fn every_id_of_small_trees() {
    let mut random = Random::of("every_id_of_small_trees");
    for count in 2..=17 {
        let spent: Vec<_> = (0..count).map(|_| transaction::Plan::random(&mut random)).collect();
        let ids: Vec<Hash> = spent.iter().map(transaction::Plan::id).collect();
        let tree = Tree::new(ids.clone());
        let all: Vec<u64> = (0..count as u64).collect();
        let block = write_bump(7, &all_stored(&ids), &all).expect("a sound list");
        for (&position, own) in all.iter().zip(&spent) {
            let single = write_bump(7, &all_stored(&ids), &[position]).map_err(plain);
            for kind in [0, 2, 4] {
                let mut proof = tsc::Plan::of(&tree, position);
                proof.aim(kind, &mut random);
                assert_eq!(to_bump(&proof.draft().bytes, 7), single);
                proof.body = own.draft();
                proof.stated = Some(proof.body.bytes.len() as u64);
                proof.flags |= 1;
                assert_eq!(to_bump(&proof.draft().bytes, 7), single);
            }
            let proof = tsc::Plan::of(&tree, position).draft().bytes;
            let id = &ids[position as usize];
            assert_eq!(to_tsc(&Plan::of(&tree, &[position]).bump().bytes, id), Ok(proof.clone()));
            assert_eq!(to_tsc(&Plan::of(&tree, &all).bump().bytes, id), Ok(proof.clone()));
            assert_eq!(to_tsc(&block, id), Ok(proof));
        }
    }
}

/// Large blocks, odd layers among them, by all clients and nothing else that can be worked out.
#[test]
fn large_blocks() {
    let mut random = Random::of("large_blocks");
    for count in [255, 257, 509, 1_000, 1_023, 1_024] {
        let tree = Tree::random(&mut random, count);
        let ids = tree.ids();
        let all: Vec<u64> = (0..count as u64).collect();
        let block = write_bump(1, &all_stored(ids), &all).expect("a sound list");
        for position in [0, 1, random.index(count), count - 2, count - 1] {
            let proof = tsc::Plan::of(&tree, position as u64).draft().bytes;
            let single = write_bump(1, &all_stored(ids), &[position as u64]).map_err(plain);
            assert_eq!(to_tsc(&block, &ids[position]), Ok(proof.clone()));
            assert_eq!(to_bump(&proof, 1), single);
        }
    }
}

/// Rooms of every size.
#[test]
fn rooms() {
    let mut random = Random::of("rooms");
    let rooms = |turn: Turn| {
        let needed = check(turn).expect("a sound proof").len();
        for room in 0..needed + 40 {
            let answer = check_room(turn, room);
            assert_eq!(answer.err(), (room < needed).then_some(Refusal::new(22, 0)));
        }
    };
    for count in [2, 3, 7, 21] {
        let tree = Tree::random(&mut random, count);
        let proof = tsc::Plan::of(&tree, count as u64 - 1).draft().bytes;
        rooms(Turn::ToBump(&proof, random.bits() as u32));
        let id = &tree.ids()[count - 1];
        rooms(Turn::ToTsc(&Plan::of(&tree, &[count as u64 - 1]).bump().bytes, id));
    }
}

/// Block heights at the edges of the VarInt's widths.
#[test]
fn block_heights() {
    let proof = expand("00 01 [aa] [ab] 01 00 [bb]");
    for edge in [0u32, 0xfd, 1 << 16] {
        for height in [edge.wrapping_sub(1), edge, edge.wrapping_add(1)] {
            assert!(to_bump(&proof, height).is_ok());
        }
    }
    assert_eq!(to_bump(&proof, u32::MAX).map(|bump| bump.len()), Ok(75));
}

/// Trees of every height, positions up to the last, and in the tallest the most bytes that can be
/// needed.
#[test]
fn tall_proofs() {
    let mut random = Random::of("tall_proofs");
    let (mut longest_bump, mut longest_tsc) = (0, 0);
    for height in 1..=64 {
        let last = u64::MAX >> (64 - height);
        for position in [0, 1, last / 2, last / 2 + 1, last - 1, last, random.within(0..=last)] {
            let mut proof = tsc::Plan::of(&Tree::random(&mut random, 1), 0);
            proof.index = position;
            proof.nodes = (0..height).map(|_| (0, random.hash())).collect();
            proof.aim(0, &mut random);
            let bump = to_bump(&proof.draft().bytes, u32::MAX).expect("a sound proof");
            let id = std::array::from_fn(|i| proof.body.bytes[i]);
            let made = to_tsc(&bump, &id).expect("a sound path");
            longest_bump = longest_bump.max(bump.len());
            longest_tsc = longest_tsc.max(made.len());
        }
    }
    assert_eq!((longest_bump, longest_tsc), (TSC_TO_BUMP_ROOM, BUMP_TO_TSC_ROOM));
}

/// Proofs of no block with id and root: there and back the bytes are the same. Copies and hashes
/// are met at every layer.
#[test]
fn there_and_back() {
    let mut random = Random::of("there_and_back");
    let (mut copies, mut hashes) = ([0; 64], [0; 64]);
    for _ in 0..rounds() {
        let proof = tsc::Plan::grown(&mut random);
        let height = random.number() as u32;
        assert!(to_bump(&proof.draft().bytes, height).is_ok());
        for (layer, node) in proof.nodes.iter().enumerate() {
            match node.0 {
                1 => copies[layer] += 1,
                _ => hashes[layer] += 1,
            }
        }
    }
    assert!(rounds() < 1_000 || copies.iter().chain(&hashes).all(|met| *met > 0));
}

/// Every change of one field and every truncation of some proofs.
#[test]
fn damaged_fields() {
    let mut random = Random::of("damaged_fields");
    let (mut bumps, mut tscs) = (Tally::default(), Tally::default());
    for count in [2, 3, 7, 21] {
        let tree = Tree::random(&mut random, count);
        let plan = Plan::random(&mut random, &tree);
        let id = plan.levels[0].iter().find(|leaf| leaf.flags == 2).map_or([0; 32], |l| l.hash);
        let bump = plan.bump();
        field_edits(&bump).for_each(|edit| bumps.note(to_tsc(&edit, &id)));
        truncations(&bump.bytes).for_each(|cut| bumps.note(to_tsc(cut, &id)));
    }
    for _ in 0..12 {
        let draft = tsc::Plan::random(&mut random, 40).draft();
        field_edits(&draft).for_each(|edit| tscs.note(to_bump(&edit, 814_435)));
        truncations(&draft.bytes).for_each(|cut| tscs.note(to_bump(cut, 814_435)));
    }
    bumps.assert_met(&[0, 2, 3, 4, 5, 6, 7, 8, 9, 13, 14]);
    tscs.assert_met(&[0, 2, 3, 5, 6, 7, 9, 11, 16]);
}

/// TSC proofs of every kind, sound, with one fault or two, and damaged.
#[test]
fn random_proofs() {
    let mut random = Random::of("random_proofs");
    let mut tally = Tally::default();
    for _ in 0..rounds() {
        let mut proof = match random.one_in(3) {
            true => tsc::Plan::grown(&mut random),
            false => tsc::Plan::random(&mut random, 40),
        };
        for _ in 0..random.within(0..=2) {
            proof.spoil(&mut random);
        }
        let (draft, height) = (proof.draft(), random.number() as u32);
        tally.note(to_bump(&draft.bytes, height));
        let edit = random_edit(&mut random, &draft);
        let room = random.within(0..=draft.bytes.len() as u64 + 80) as usize;
        tally.note(check_room(Turn::ToBump(&edit, height), room));
    }
    if rounds() >= 1_000 {
        tally.assert_met(&[0, 2, 3, 4, 5, 6, 7, 9, 11, 15, 16, 22]);
    }
}

/// Paths of blocks and of none, with siblings written, copied or to be worked out, sound or not,
/// asked for ids that they carry and others.
#[test]
fn random_paths() {
    let mut random = Random::of("random_paths");
    let mut tally = Tally::default();
    for _ in 0..rounds() {
        let id = random.hash();
        let mut plan = match random.one_in(2) {
            true => Plan::grown(&mut random, id),
            false => {
                let count = random.within(2..=40) as usize;
                let tree = Tree::random(&mut random, count);
                Plan::random(&mut random, &tree)
            }
        };
        match random.within(0..=3) {
            0 => {}
            1 => plan.spoil(&mut random),
            _ => plan.unsettle(&mut random),
        }
        let mut ids: Vec<Hash> =
            plan.levels.iter().take(2).flatten().map(|leaf| leaf.hash).collect();
        ids.push(id);
        let (draft, asked) = (plan.bump(), random.pick(&ids));
        tally.note(to_tsc(&draft.bytes, &asked));
        let edit = random_edit(&mut random, &draft);
        let room = random.within(0..=400) as usize;
        tally.note(check_room(Turn::ToTsc(&edit, &asked), room));
    }
    if rounds() >= 1_000 {
        tally.assert_met(&[0, 2, 3, 4, 5, 6, 7, 8, 9, 13, 14, 15, 22]);
    }
}

/// What the climb doesn't ask about leaves no trace: of any two paths with one climb comes one TSC
/// proof.
#[test]
fn surplus_is_left_out() {
    let mut random = Random::of("surplus_is_left_out");
    for _ in 0..rounds() / 5 {
        let count = random.within(2..=50) as usize;
        let tree = Tree::random(&mut random, count);
        // Position 0 keeps its place if surplus leaves carry its id, too.
        let position = if random.one_in(4) { 0 } else { 1 + random.index(count - 1) as u64 };
        let mut plan = Plan::of(&tree, &[position]);
        plan.vary(&mut random, &tree);
        let proof = tsc::Plan::of(&tree, position).draft().bytes;
        assert_eq!(to_tsc(&plan.bump().bytes, &tree.ids()[position as usize]), Ok(proof));
    }
}

/// The top sibling of a tree of 64 layers is worked out over 63 levels of copies, and becomes a
/// hash; the climb's own copies stay copies.
#[test]
fn copies_of_copies() {
    let id = [0xaa; 32];
    let copied = |hash| (0..63).fold(hash, |hash, _| join(&hash, &hash));
    let made = to_tsc(&Plan::copies(id).bump().bytes, &id).expect("a sound path");
    let top = copied([0xbb; 32]);
    let root = parent(&top, &copied(id));
    let proof = format!("04 ff 00{{7}} 80 [aa] {root} 40 01{{63}} 00 {}", encode(&top));
    assert_eq!(Ok(made), bytes(&proof));
}

#[test]
fn sizes() {
    let longer = vec![0; MAX_INPUT + 1];
    let id = [0; 32];
    assert_eq!(to_bump(&longer, 1), refused(1, 0));
    assert_eq!(to_tsc(&longer, &id), refused(1, 0));
    let greatest = &longer[1..];
    assert!(to_bump(greatest, 1).is_err());
    assert_eq!(to_tsc(greatest, &id), refused(4, 1));
    // A proof of the greatest size, by its transaction.
    let mut random = Random::of("sizes");
    let mut own = transaction::Plan::random(&mut random);
    own.outputs.push((1, vec![0; MAX_INPUT / 2]));
    let mut proof = tsc::Plan::of(&Tree::random(&mut random, 2), 1);
    proof.aim(0, &mut random);
    (proof.flags, proof.body) = (1, own.draft());
    proof.stated = Some(proof.body.bytes.len() as u64);
    let missing = MAX_INPUT - proof.draft().bytes.len();
    own.outputs.last_mut().expect("an output").1.resize(MAX_INPUT / 2 + missing, 0);
    proof.body = own.draft();
    proof.stated = Some(proof.body.bytes.len() as u64);
    let data = proof.draft().bytes;
    assert_eq!(data.len(), MAX_INPUT);
    let bump = check_room(Turn::ToBump(&data, 1), 71).expect("a sound proof");
    assert_eq!(bump[38..], [&[2][..], &own.id()].concat());
}
