//! Reading VarInts, BUMPs and compound paths: the library against the reference.

mod common;

use barrowtide::{ffi, Bump, Cmp, VarInt, MAX_INPUT};
use common::{expected, plain, FILL, GUARDED};
use reference::generate::damage::{all_strings, field_edits, random_edit, truncations};
use reference::generate::draft::{varint, wide_varint, Draft};
use reference::generate::path::{Leaf, Plan};
use reference::generate::random::{rounds, Random};
use reference::generate::tally::Tally;
use reference::generate::tree::Tree;
use reference::hex::{decode, expand, show};
use reference::refusal::Refusal;
use reference::{bump, cmp, fields};

fn check_varint(data: &[u8]) -> Result<VarInt, Refusal> {
    let told =
        fields::read_varint(data).map(|read| VarInt { value: read.value, width: read.width });
    let fill = VarInt { value: FILL, width: FILL };
    let (mut guarded, mut lent) = (GUARDED, fill);
    let number = ffi::read_varint(data, &mut guarded.blame, &mut lent.value, &mut lent.width);
    assert_eq!((number, guarded, lent), expected(told, fill), "{}", show(data));
    assert_eq!(barrowtide::read_varint(data).map_err(plain), told, "{}", show(data));
    told
}

fn check_bump(data: &[u8]) -> Result<Bump, Refusal> {
    let told = bump::read(data).map(|read| Bump {
        block_height: read.block_height,
        tree_height: read.path.tree_height(),
        leaves: read.path.leaves(),
    });
    let fill = Bump { block_height: FILL, tree_height: FILL, leaves: FILL };
    let (mut guarded, mut lent) = (GUARDED, fill);
    let number = ffi::read_bump(
        data,
        &mut guarded.blame,
        &mut lent.block_height,
        &mut lent.tree_height,
        &mut lent.leaves,
    );
    assert_eq!((number, guarded, lent), expected(told, fill), "{}", show(data));
    assert_eq!(barrowtide::read_bump(data).map_err(plain), told, "{}", show(data));
    told
}

fn check_cmp(data: &[u8]) -> Result<Cmp, Refusal> {
    let told =
        cmp::read(data).map(|read| Cmp { tree_height: read.tree_height(), leaves: read.leaves() });
    let fill = Cmp { tree_height: FILL, leaves: FILL };
    let (mut guarded, mut lent) = (GUARDED, fill);
    let number = ffi::read_cmp(data, &mut guarded.blame, &mut lent.tree_height, &mut lent.leaves);
    assert_eq!((number, guarded, lent), expected(told, fill), "{}", show(data));
    assert_eq!(barrowtide::read_cmp(data).map_err(plain), told, "{}", show(data));
    told
}

fn refused<T>(number: u32, carried: u64) -> Result<T, Refusal> {
    Err(Refusal::new(number, carried))
}

/// P1 to P6 and their like.
#[test]
fn varint_examples() {
    let ok = |value, width| Ok(VarInt { value, width });
    for (example, answer) in [
        ("fc", ok(252, 1)),
        ("fd fd 00", ok(253, 3)),
        ("fd fc 00", refused(3, 0)),
        ("fe 63 6d 0c 00", ok(814_435, 5)),
        ("fe ff ff 00 00", refused(3, 0)),
        ("", refused(2, 0)),
        ("fd 05", refused(2, 0)),
        ("fe 05 00 00", refused(2, 0)),
        ("fd 05 00", refused(3, 0)),
        ("fe 00 00 01 00", ok(65_536, 5)),
        ("ff ff ff ff ff 00 00 00 00", refused(3, 0)),
        ("ff 00 00 00 00 01 00 00 00", ok(1 << 32, 9)),
        ("ff{9}", ok(u64::MAX, 9)),
        ("07 99", ok(7, 1)),
    ] {
        assert_eq!(check_varint(&expand(example)), answer, "{example}");
    }
}

/// P7 to P12, and the fine points of fields, counts, offsets and flags.
#[test]
fn bump_examples() {
    let ok = |block_height, tree_height, leaves| Ok(Bump { block_height, tree_height, leaves });
    for (example, answer) in [
        ("00 01 00", ok(0, 1, 0)),
        ("00 00", refused(4, 1)),
        ("00 21", refused(2, 2)),
        ("00 40", refused(2, 2)),
        ("00 41", refused(4, 1)),
        ("00 01 01 00 01", refused(7, 4)),
        ("00 01 01 02", refused(6, 3)),
        ("00 01 02 01 01 01", refused(8, 5)),
        ("00 01 01 01 01", ok(0, 1, 1)),
        ("00 01 fe 01 04 00 00", refused(3, 2)),
        ("00 01 01 fd 09 00", refused(3, 3)),
        ("", refused(2, 0)),
        ("00 01", refused(2, 2)),
        ("00 01 01", refused(2, 3)),
        ("00 01 01 00", refused(2, 4)),
        ("00 01 01 00 00", refused(2, 5)),
        ("00 01 01 00 00 aa{31}", refused(2, 5)),
        ("ff 00 00 00 00 01 00 00 00 01 00", refused(5, 0)),
        ("fe ff ff ff ff 01 00", ok(4_294_967_295, 1, 0)),
        ("ff ff ff ff ff 00 00 00 00 01 00", refused(3, 0)),
        ("00 01 03 00 00 [11] 01 01 02 00 [22]", refused(6, 39)),
        ("00 01 03 00 00 [11] 01 01 01 01", refused(8, 39)),
        ("00 02 00 01 01 02", refused(7, 5)),
        ("00 02 01 02 01", refused(7, 4)),
        ("00 01 02 01 01 01 09", refused(8, 5)),
        ("00 01 00 00", refused(9, 3)),
        ("00 40 01 ff{9} 01 00{63}", ok(0, 64, 1)),
        ("00 40 00 01 ff{9} 01", refused(6, 4)),
        ("00 40 00 01 ff{8} 7f 01 00{62}", ok(0, 64, 1)),
        ("00 40 02 ff{9} 01 ff{9} 01", refused(8, 13)),
        ("00 40 02 ff{9} 01 01 01 00{63}", ok(0, 64, 2)),
        ("00 40 02 ff 01 00{3} 01 00{3} 01 01 01 00{63}", ok(0, 64, 2)),
    ] {
        assert_eq!(check_bump(&expand(example)), answer, "{example}");
    }
}

#[test]
fn cmp_examples() {
    let ok = |tree_height, leaves| Ok(Cmp { tree_height, leaves });
    for (example, answer) in [
        ("00 00", ok(1, 0)),
        ("0b fd 01 04", refused(5, 1)),
        ("20", refused(2, 1)),
        ("3f", refused(2, 1)),
        ("40", refused(4, 0)),
        ("3f 00{63} 01 ff{9} [aa]", ok(64, 1)),
        ("3f 00{62} 01 ff{9} [aa] 00", refused(6, 64)),
        ("01 01 02", refused(6, 2)),
        ("01 00 01 03 [aa]", ok(2, 1)),
        ("01 02 01 [aa] 01", refused(8, 35)),
        ("00 00 00", refused(9, 2)),
    ] {
        assert_eq!(check_cmp(&expand(example)), answer, "{example}");
    }
}

/// 004's BUMP and 001's path.
#[test]
fn published_paths() {
    let bump = decode(include_str!("../../tests/data/004-bump.hex"));
    assert_eq!(bump.len(), 285);
    let content = Bump { block_height: 814_435, tree_height: 7, leaves: 8 };
    assert_eq!(check_bump(&bump), Ok(content));
    let path = decode(include_str!("../../tests/data/001-path.hex"));
    assert_eq!(path.len(), 235);
    assert_eq!(check_cmp(&path), Ok(Cmp { tree_height: 3, leaves: 7 }));
    for cut in truncations(&bump) {
        assert!(check_bump(cut).is_err());
    }
    for cut in truncations(&path) {
        assert!(check_cmp(cut).is_err());
    }
}

#[test]
fn varints_at_the_edges() {
    let mut tally = Tally::default();
    for bits in 0..=64 {
        let power = 1u64.checked_shl(bits).unwrap_or(0);
        for value in (0..=4).map(|step| power.wrapping_add(step).wrapping_sub(2)) {
            let forms = [varint(value)].into_iter().chain([2, 4, 8].map(|w| wide_varint(value, w)));
            for mut bytes in forms {
                tally.note(check_varint(&bytes));
                truncations(&bytes).for_each(|cut| tally.note(check_varint(cut)));
                bytes.push(0x55);
                tally.note(check_varint(&bytes));
            }
        }
    }
    tally.assert_met(&[0, 2, 3]);
}

#[test]
fn varints_of_random_bytes() {
    let mut random = Random::of("varints_of_random_bytes");
    for _ in 0..10 * rounds() {
        let length = random.within(0..=11) as usize;
        let mut bytes = random.bytes(length);
        if let Some(first) = bytes.first_mut().filter(|_| random.one_in(2)) {
            *first = random.pick(&[0xfc, 0xfd, 0xfe, 0xff]);
        }
        let _ = check_varint(&bytes);
    }
}

/// All short inputs of telling bytes.
#[test]
fn short_inputs() {
    let alphabet = [0x00, 0x01, 0x02, 0x03, 0x40, 0x41, 0xfc, 0xfd, 0xfe, 0xff];
    for data in all_strings(&alphabet, 5) {
        let _ = check_varint(&data);
        let _ = check_bump(&data);
        let _ = check_cmp(&data);
    }
}

/// Paths of real trees of every small size and some large ones, with all ids or few as clients.
#[test]
fn sound_paths() {
    let mut random = Random::of("sound_paths");
    for count in (2..=64).chain([100, 257, 511, 512, 513, 1_000, 1_023, 1_024]) {
        let tree = Tree::random(&mut random, count);
        let all: Vec<u64> = (0..count as u64).collect();
        for plan in [Plan::of(&tree, &all), Plan::random(&mut random, &tree)] {
            assert!(check_bump(&plan.bump().bytes).is_ok());
            assert!(check_cmp(&plan.cmp().bytes).is_ok());
        }
    }
}

/// Every change of one field and every truncation of some paths.
#[test]
fn damaged_fields() {
    let mut random = Random::of("damaged_fields");
    let (mut bumps, mut cmps) = (Tally::default(), Tally::default());
    for count in [2, 3, 5, 6, 13, 300] {
        let tree = Tree::random(&mut random, count);
        let plan = Plan::random(&mut random, &tree);
        let (bump, cmp) = (plan.bump(), plan.cmp());
        field_edits(&bump).for_each(|edit| bumps.note(check_bump(&edit)));
        field_edits(&cmp).for_each(|edit| cmps.note(check_cmp(&edit)));
        truncations(&bump.bytes).for_each(|cut| bumps.note(check_bump(cut)));
        truncations(&cmp.bytes).for_each(|cut| cmps.note(check_cmp(cut)));
    }
    bumps.assert_met(&[0, 2, 3, 4, 5, 6, 7, 8, 9]);
    cmps.assert_met(&[0, 2, 3, 4, 5, 6, 8, 9]);
}

#[test]
fn random_damage() {
    let mut random = Random::of("random_damage");
    for _ in 0..rounds() {
        let count = random.within(2..=40) as usize;
        let tree = Tree::random(&mut random, count);
        let mut plan = Plan::random(&mut random, &tree);
        for _ in 0..4 {
            let _ = check_bump(&random_edit(&mut random, &plan.bump()));
            let _ = check_cmp(&random_edit(&mut random, &plan.cmp()));
        }
        for _ in 0..4 {
            plan.spoil(&mut random);
            let _ = check_bump(&plan.bump().bytes);
            let _ = check_cmp(&plan.cmp().bytes);
        }
    }
}

/// At each level of trees of every height: the last offset that fits, and the first that does not.
#[test]
fn offsets_at_the_bounds() {
    for height in 1..=65usize {
        for level in 0..height {
            let last = u64::MAX >> 64usize.saturating_sub(height - level);
            for offset in [Some(last), last.checked_add(1)].into_iter().flatten() {
                let mut levels = vec![Vec::new(); height];
                levels[level].push(Leaf { offset, flags: 1, hash: [0xaa; 32] });
                let plan = Plan { block_height: 0, levels };
                let fits = offset == last && height <= 64;
                assert_eq!(check_bump(&plan.bump().bytes).is_ok(), fits);
                assert_eq!(check_cmp(&plan.cmp().bytes).is_ok(), fits);
            }
        }
    }
}

/// 1,024 leaves in a level, and one more; rising, falling, in no order, and with the last repeated;
/// side by side, and so far apart that their low bits are the same.
#[test]
fn full_levels() {
    let mut random = Random::of("full_levels");
    let steps = [2, 1 << 13, 1 << 32, 1 << 52];
    for (count, step) in [1_024, 1_025].into_iter().flat_map(|n| steps.map(|step| (n, step))) {
        let rising: Vec<u64> = (0..count).map(|n| step * n + 1).collect();
        let falling = rising.iter().rev().copied().collect();
        let mut mixed = rising.clone();
        random.shuffle(&mut mixed);
        let mut repeated = mixed.clone();
        repeated[count as usize - 1] = mixed[0];
        for (offsets, distinct) in
            [(rising, true), (falling, true), (mixed, true), (repeated, false)]
        {
            let leaf = |offset: &u64| Leaf { offset: *offset, flags: 1, hash: [0; 32] };
            let full: Vec<Leaf> = offsets.iter().map(leaf).collect();
            let plan = Plan { block_height: 1, levels: vec![full.clone(), full, Vec::new()] };
            let taller =
                Plan { levels: [plan.levels.clone(), vec![Vec::new(); 61]].concat(), ..plan };
            let number = if count > 1_024 { 5 } else { 8 };
            let sound = distinct && count == 1_024;
            let answer = check_bump(&taller.bump().bytes);
            assert!(if sound { answer.is_ok() } else { answer.unwrap_err().number == number });
            let answer = check_cmp(&taller.cmp().bytes);
            assert!(if sound { answer.is_ok() } else { answer.unwrap_err().number == number });
        }
    }
}

#[test]
fn sizes() {
    let mut input = vec![0; MAX_INPUT + 1];
    let mut bump = Draft::default();
    bump.varint(7);
    bump.byte(1);
    bump.varint(0);
    input[..3].copy_from_slice(&bump.bytes);
    assert_eq!(check_varint(&input), refused(1, 0));
    assert_eq!(check_bump(&input), refused(1, 0));
    assert_eq!(check_cmp(&input), refused(1, 0));
    input.pop();
    assert!(check_varint(&input).is_ok());
    assert_eq!(check_bump(&input), refused(9, 3));
    input[0] = 0;
    input[1] = 0;
    assert_eq!(check_cmp(&input), refused(9, 2));
}
