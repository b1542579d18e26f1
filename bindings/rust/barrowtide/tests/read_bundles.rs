//! Reading raw transactions, TSC proofs and BEEF bundles: the library against the reference.

mod common;

use barrowtide::{ffi, Beef, Hash, Transaction, Tsc, MAX_INPUT};
use common::{expected, plain, FILL, GUARDED};
use reference::generate::damage::{all_strings, field_edits, random_edit, truncations};
use reference::generate::draft::Draft;
use reference::generate::random::{rounds, Random};
use reference::generate::tally::Tally;
use reference::generate::{bundle, path, transaction as raw, tsc as proof};
use reference::hex::{decode, expand, show};
use reference::refusal::Refusal;
use reference::{beef, transaction, tsc};

fn check_transaction(data: &[u8]) -> Result<Transaction, Refusal> {
    let told = transaction::read(data).map(|read| Transaction {
        inputs: read.inputs.len() as u64,
        outputs: read.outputs.len() as u64,
        id: Hash::from_stored(read.id),
    });
    let fill = Transaction { inputs: FILL, outputs: FILL, id: Hash::from_stored([0xa5; 32]) };
    let (mut guarded, mut lent, mut id) = (GUARDED, fill, [0xa5; 32]);
    let number = ffi::read_transaction(
        data,
        &mut guarded.blame,
        &mut lent.inputs,
        &mut lent.outputs,
        &mut id,
    );
    lent.id = Hash::from_stored(id);
    assert_eq!((number, guarded, lent), expected(told, fill), "{}", show(data));
    assert_eq!(barrowtide::read_transaction(data).map_err(plain), told, "{}", show(data));
    told
}

fn check_tsc(data: &[u8]) -> Result<Tsc, Refusal> {
    let told = tsc::read(data).map(|read| Tsc {
        flags: u64::from(read.flags),
        index: read.index,
        nodes: read.nodes.len() as u64,
    });
    let fill = Tsc { flags: FILL, index: FILL, nodes: FILL };
    let (mut guarded, mut lent) = (GUARDED, fill);
    let number =
        ffi::read_tsc(data, &mut guarded.blame, &mut lent.flags, &mut lent.index, &mut lent.nodes);
    assert_eq!((number, guarded, lent), expected(told, fill), "{}", show(data));
    assert_eq!(barrowtide::read_tsc(data).map_err(plain), told, "{}", show(data));
    told
}

fn check_beef(data: &[u8]) -> Result<Beef, Refusal> {
    let told = beef::read(data).map(|read| Beef {
        bumps: read.bumps.len() as u64,
        transactions: read.entries.len() as u64,
    });
    let fill = Beef { bumps: FILL, transactions: FILL };
    let (mut guarded, mut lent) = (GUARDED, fill);
    let number = ffi::read_beef(data, &mut guarded.blame, &mut lent.bumps, &mut lent.transactions);
    assert_eq!((number, guarded, lent), expected(told, fill), "{}", show(data));
    assert_eq!(barrowtide::read_beef(data).map_err(plain), told, "{}", show(data));
    told
}

fn refused<T>(number: u32, carried: u64) -> Result<T, Refusal> {
    Err(Refusal::new(number, carried))
}

/// A transaction of 60 bytes: one input and one output without scripts.
const SMALL: &str = "01 00 00 00 01 [aa] 00 00 00 00 00 ff{4} 01 e8 03 00{6} 00 00{4}";

/// The fields of a transaction of 64 bytes, and a transaction of 65.
const SIXTY_FOUR: &str = "01 00 00 00 01 [aa] 00 00 00 00 04 51{4} ff{4} 01 e8 03 00{6} 00 00{4}";
const SIXTY_FIVE: &str = "01 00 00 00 01 [aa] 00 00 00 00 05 51{5} ff{4} 01 e8 03 00{6} 00 00{4}";

#[test]
fn transaction_examples() {
    assert!(check_transaction(&expand(SMALL)).is_ok());
    for (example, answer) in [
        ("", refused(2, 0)),
        ("01 00 00", refused(2, 0)),
        ("01 00 00 00", refused(2, 4)),
        ("01 00 00 00 00", refused(11, 4)),
        ("01 00 00 00 fd 00 00", refused(3, 4)),
        ("01 00 00 00 01 [aa] 00 00", refused(2, 37)),
        ("01 00 00 00 01 aa{31}", refused(2, 5)),
        ("01 00 00 00 01 [aa] 00 00 00 00 05 11 22", refused(2, 42)),
        ("01 00 00 00 01 [aa] 00 00 00 00 00", refused(2, 42)),
        ("01 00 00 00 01 [aa] 00 00 00 00 ff{9} 11", refused(2, 50)),
        ("01 00 00 00 ff{9} [aa]", refused(2, 45)),
        ("01 00 00 00 01 [aa] 00 00 00 00 00 ff{4} 00", refused(11, 46)),
        ("01 00 00 00 01 [aa] 00 00 00 00 00 ff{4} ff{9} 00{8} 00", refused(2, 64)),
    ] {
        assert_eq!(check_transaction(&expand(example)), answer, "{example}");
    }
    assert_eq!(check_transaction(&expand(&format!("{SMALL} 00"))), refused(9, 60));
}

/// 64 bytes are 11 at the first of them, in every form: after the last field and 25, before 9 and
/// whatever follows.
#[test]
fn node_sized() {
    let with = |text: &str| {
        let text = text.replace("T64", SIXTY_FOUR).replace("T65", SIXTY_FIVE);
        expand(&text.replace("SMALL", SMALL))
    };
    let raw = with("T64");
    assert_eq!(raw.len(), 64);
    assert_eq!(check_transaction(&raw), refused(11, 0));
    assert_eq!(check_transaction(&with("T64 00")), refused(11, 0));
    assert_eq!(check_transaction(&raw[..63]), refused(2, 60));
    assert!(check_transaction(&with("T65")).is_ok());
    assert_eq!(check_tsc(&with("05 00 40 T64")), refused(11, 3));
    assert_eq!(check_tsc(&with("05 00 41 T64 00")), refused(11, 3));
    assert_eq!(check_tsc(&with("05 00 40 T64 [bb] 00")), refused(11, 3));
    assert_eq!(check_tsc(&with("05 00 41 T65 [bb] 00")), Ok(Tsc { flags: 5, index: 0, nodes: 0 }));
    assert_eq!(check_beef(&with("01 00 be ef 00 01 T64")), refused(11, 6));
    assert_eq!(check_beef(&with("01 00 be ef 00 01 T64 02")), refused(11, 6));
    assert_eq!(check_beef(&with("01 00 be ef 00 02 SMALL 00 T64 00")), refused(11, 67));
    assert_eq!(
        check_beef(&with("01 00 be ef 00 01 T65 00")),
        Ok(Beef { bumps: 0, transactions: 1 })
    );
    // An amount over the limit is told before it, in a bundle alone.
    let mut rich = raw;
    rich[58] = 1;
    assert_eq!(check_transaction(&rich), refused(11, 0));
    let head = expand("01 00 be ef 00 01");
    assert_eq!(check_beef(&[head, rich].concat()), refused(25, 6 + 51));
}

/// P14 among them: position 7, then 8, over 3 layers.
#[test]
fn tsc_examples() {
    let ok = |flags, index, nodes| Ok(Tsc { flags, index, nodes });
    for (example, answer) in [
        ("", refused(2, 0)),
        ("06", refused(7, 0)),
        ("08", refused(7, 0)),
        ("ff", refused(7, 0)),
        ("00", refused(2, 1)),
        ("00 fd 01 00", refused(3, 1)),
        ("00 08 [aa] [bb] 41", refused(5, 66)),
        ("00 ff 00{7} 01 [aa] [bb] 41", refused(5, 74)),
        ("00 08 [aa] [bb] 21 01{33}", ok(0, 8, 33)),
        ("00 ff{9} [aa] [bb] 40 01{64}", ok(0, u64::MAX, 64)),
        ("00 ff{9} [aa] [bb] 3f 01{63}", refused(6, 1)),
        ("00 08 [aa] [bb] 03", refused(6, 1)),
        ("00 07 [aa] [bb] 03", refused(2, 67)),
        ("00 07 [aa] [bb] 03 01 01 01", ok(0, 7, 3)),
        ("00 01 [aa] [bb] 00", refused(6, 1)),
        ("00 09 [aa] [bb]", refused(2, 66)),
        ("00 00 [aa] [bb] 01 02", refused(7, 67)),
        ("00 00 [aa] [bb] 01 00 cc{31}", refused(2, 68)),
        ("00 00 [aa] [bb] 00 00", refused(9, 67)),
        ("02 00 [aa] bb{80} 00", ok(2, 0, 0)),
        ("02 00 [aa] bb{79}", refused(2, 34)),
        ("05 00 00", refused(11, 3)),
        ("05 00 01", refused(2, 3)),
        ("05 00", refused(2, 2)),
        ("05 00 fd 01 00", refused(3, 2)),
        ("05 00 05 01 00 00 00 00", refused(11, 3)),
        ("05 00 ff{9}", refused(2, 11)),
    ] {
        assert_eq!(check_tsc(&expand(example)), answer, "{example}");
    }
    let with = |text: &str| check_tsc(&expand(&text.replace("SMALL", SMALL)));
    assert_eq!(with("05 00 3d SMALL 00"), refused(11, 3));
    assert_eq!(with("05 00 3b SMALL"), refused(11, 3));
    assert_eq!(with("05 00 3c SMALL"), refused(2, 63));
    assert_eq!(with("05 00 3c SMALL [bb] 00"), ok(5, 0, 0));
    assert_eq!(with("07 00 3c SMALL [bb] 00"), refused(7, 0));
}

#[test]
fn beef_examples() {
    for (example, answer) in [
        ("", refused(2, 0)),
        ("02 00 be", refused(2, 0)),
        ("02 00 be ef", refused(10, 0)),
        ("01 00 be ef", refused(2, 4)),
        ("01 00 be ef 41", refused(5, 4)),
        ("01 00 be ef fd 01 00", refused(3, 4)),
        ("01 00 be ef 01 00 00", refused(4, 6)),
        ("01 00 be ef 00 00", refused(12, 5)),
        ("01 00 be ef 00 fd 01 01", refused(5, 5)),
        ("01 00 be ef 00 fd 00 01", refused(2, 8)),
        ("01 00 be ef 00 01", refused(2, 6)),
    ] {
        assert_eq!(check_beef(&expand(example)), answer, "{example}");
    }
    let with = |text: &str| check_beef(&expand(&text.replace("SMALL", SMALL)));
    let one = |bumps| Ok(Beef { bumps, transactions: 1 });
    assert_eq!(with("01 00 be ef 00 01 SMALL"), refused(2, 66));
    assert_eq!(with("01 00 be ef 00 01 SMALL 02"), refused(7, 66));
    assert_eq!(with("01 00 be ef 00 01 SMALL 00"), one(0));
    assert_eq!(with("01 00 be ef 00 01 SMALL 00 00"), refused(9, 67));
    assert_eq!(with("01 00 be ef 00 01 SMALL 01 00"), refused(18, 67));
    assert_eq!(with("01 00 be ef 01 00 01 00 01 SMALL 01 00"), one(1));
    assert_eq!(with("01 00 be ef 01 00 01 00 01 SMALL 01 01"), refused(18, 70));
    assert_eq!(with("01 00 be ef 01 00 01 00 01 SMALL 01 fd 00 00"), refused(3, 70));
}

/// Only a bundle has a limit for amounts, anchored transactions included: 25 at the amount, after 2
/// there and before anything later.
#[test]
fn amount_examples() {
    let inputs = "01 00 00 00 01 [aa] 00 00 00 00 00 ff{4}";
    // 2,100,000,000,000,000 and one more.
    let (most, more) = ("00 40 07 5a f0 75 07 00", "01 40 07 5a f0 75 07 00");
    for (outputs, answer) in [
        ("01 MOST 00 00{4}", Ok(1)),
        ("02 MOST 00 00{8} 00 00{4}", Ok(2)),
        ("02 MOST 00 01 00{7} 00 00{4}", Err(62)),
        ("01 MORE 00 00{4}", Err(53)),
        ("01 ff{8} 00 00{4}", Err(53)),
        ("03 ff{8} 00 01 00{7} 00 00{8} 00 00{4}", Err(53)),
        ("02 01 00{7} 00 MOST 00 00{4}", Err(62)),
        // Nothing after the amount is looked at.
        ("01 MORE", Err(53)),
        ("01 MORE fd 00 00", Err(53)),
    ] {
        let text = outputs.replace("MOST", most).replace("MORE", more);
        let transaction = format!("{inputs} {text}");
        let length = expand(&transaction).len();
        let whole = outputs.ends_with("00{4}");
        for (head, foot) in [("01 00 be ef 00 01", "00"), ("01 00 be ef 01 00 01 00 01", "01 00")] {
            let shift = expand(head).len() as u64 - 6;
            let bundle = expand(&format!("{head} {transaction} {foot}"));
            let told = check_beef(&bundle).map(|_| ()).map_err(|told| (told.number, told.carried));
            assert_eq!(told, answer.map(|_| ()).map_err(|place| (25, place + shift)), "{outputs}");
        }
        if whole {
            let read = check_transaction(&expand(&transaction)).expect("a sound transaction");
            assert_eq!(answer.unwrap_or(read.outputs), read.outputs);
            let proof = format!("05 00 {length:02x} {transaction} [bb] 00");
            assert!(check_tsc(&expand(&proof)).is_ok(), "{outputs}");
        }
    }
    let cut = format!("01 00 be ef 00 01 {inputs} 01 ff{{7}}");
    assert_eq!(check_beef(&expand(&cut)), refused(2, 53));
}

/// 004's bundle and its transactions, and 000's proof.
#[test]
fn published_inputs() {
    let bundle = decode(include_str!("../../tests/data/004-bundle.hex"));
    assert_eq!(bundle.len(), 677);
    assert_eq!(check_beef(&bundle), Ok(Beef { bumps: 1, transactions: 2 }));
    for range in [291..291 + 192, 485..485 + 191] {
        let read = check_transaction(&bundle[range]).unwrap();
        assert_eq!((read.inputs, read.outputs), (1, 1));
    }
    let proof = decode(include_str!("../../tests/data/000-proof.hex"));
    assert_eq!(check_tsc(&proof), Ok(Tsc { flags: 0, index: 12, nodes: 5 }));
    for cut in truncations(&bundle) {
        assert!(check_beef(cut).is_err());
        let _ = check_transaction(cut.get(291..).unwrap_or(&[]));
    }
    for cut in truncations(&proof) {
        assert!(check_tsc(cut).is_err());
    }
}

/// All short inputs of telling bytes, alone and behind what makes them matter.
#[test]
fn short_inputs() {
    let alphabet = [0x00, 0x01, 0x02, 0x04, 0x05, 0x20, 0x21, 0xfd, 0xff];
    let beef = expand("01 00 be ef");
    let input = expand("01 00 00 00 01 [aa] 00 00 00 00");
    let output = expand("01 00 00 00 01 [aa] 00 00 00 00 00 ff{4} 01 00{8}");
    for data in all_strings(&alphabet, 5) {
        let _ = check_transaction(&data);
        let _ = check_tsc(&data);
        let _ = check_beef(&data);
        let _ = check_beef(&[&beef, &data[..]].concat());
        let _ = check_transaction(&[&input, &data[..]].concat());
        let _ = check_transaction(&[&output, &data[..]].concat());
    }
}

#[test]
fn damaged_fields() {
    let mut random = Random::of("damaged_fields");
    let mut tally = Tally::default();
    for _ in 0..8 {
        let draft = raw::Plan::random(&mut random).draft();
        assert!(check_transaction(&draft.bytes).is_ok());
        field_edits(&draft).for_each(|edit| tally.note(check_transaction(&edit)));
        truncations(&draft.bytes).for_each(|cut| tally.note(check_transaction(cut)));
    }
    tally.assert_met(&[0, 2, 3, 9, 11]);

    let mut tally = Tally::default();
    for _ in 0..24 {
        let draft = proof::Plan::random(&mut random, 40).draft();
        assert!(check_tsc(&draft.bytes).is_ok());
        field_edits(&draft).for_each(|edit| tally.note(check_tsc(&edit)));
        truncations(&draft.bytes).for_each(|cut| tally.note(check_tsc(cut)));
    }
    tally.assert_met(&[0, 2, 3, 5, 6, 7, 9, 11]);

    let mut tally = Tally::default();
    for count in 1..=4 {
        let draft = bundle::Plan::random(&mut random, count).draft();
        assert!(check_beef(&draft.bytes).is_ok());
        field_edits(&draft).for_each(|edit| tally.note(check_beef(&edit)));
        truncations(&draft.bytes).for_each(|cut| tally.note(check_beef(cut)));
        let versions = (0..32).map(|bit| {
            let mut other = draft.bytes.clone();
            other[bit / 8] ^= 1 << (bit % 8);
            other
        });
        versions.for_each(|other| assert_eq!(check_beef(&other), refused(10, 0)));
    }
    tally.assert_met(&[0, 2, 3, 4, 5, 6, 7, 8, 9, 10, 11, 12, 18, 25]);
}

#[test]
fn random_damage() {
    let mut random = Random::of("random_damage");
    for _ in 0..rounds() {
        let mut plan = raw::Plan::random(&mut random);
        if random.one_in(2) {
            let length = random.within(60..=68) as usize;
            plan.shrink(&mut random, length);
        }
        let draft = plan.draft();
        let _ = check_transaction(&draft.bytes);
        for _ in 0..4 {
            let _ = check_transaction(&random_edit(&mut random, &draft));
        }
        let mut plan = proof::Plan::random(&mut random, 20);
        for _ in 0..4 {
            let _ = check_tsc(&random_edit(&mut random, &plan.draft()));
        }
        for _ in 0..4 {
            plan.spoil(&mut random);
            let _ = check_tsc(&plan.draft().bytes);
        }
        let count = random.within(1..=6);
        let mut plan = bundle::Plan::random(&mut random, count);
        for _ in 0..6 {
            let _ = check_beef(&random_edit(&mut random, &plan.draft()));
        }
        for _ in 0..2 {
            plan.spoil(&mut random);
            let _ = check_beef(&plan.draft().bytes);
        }
    }
}

/// 64 BUMPs and 256 transactions, and one more of each.
#[test]
fn full_bundles() {
    let mut random = Random::of("full_bundles");
    let bump = path::Plan { block_height: 0, levels: vec![Vec::new()] };
    let entry = (raw::Plan::mined(&mut random), Some(0));
    for (bumps, transactions, number) in [(64, 256, 0), (65, 1, 5), (1, 257, 5), (64, 1, 0)] {
        let plan = bundle::Plan {
            bumps: vec![bump.clone(); bumps],
            entries: vec![entry.clone(); transactions],
            roots: Vec::new(),
            fee: 0,
        };
        let answer = check_beef(&plan.draft().bytes);
        assert_eq!(answer.map_or_else(|refusal| refusal.number, |_| 0), number);
    }
}

/// A transaction of exactly the greatest size, and one byte longer, alone and in a TSC proof.
#[test]
fn sizes() {
    let mut plan = raw::Plan::random(&mut Random::of("sizes"));
    plan.inputs.truncate(1);
    plan.inputs[0].2 = Vec::new();
    plan.outputs = vec![(1, vec![0x51; 1 << 20])];
    let shorter = plan.draft().bytes.len();
    plan.outputs[0].1.resize((1 << 20) + MAX_INPUT - shorter, 0x51);
    let greatest = plan.draft().bytes;
    assert_eq!(greatest.len(), MAX_INPUT);
    assert!(check_transaction(&greatest).is_ok());
    assert!(check_tsc(&greatest).is_err());
    assert_eq!(check_beef(&greatest), refused(10, 0));

    plan.outputs[0].1.push(0x51);
    let longer = plan.draft().bytes;
    assert_eq!(check_transaction(&longer), refused(1, 0));
    assert_eq!(check_tsc(&longer), refused(1, 0));
    assert_eq!(check_beef(&longer), refused(1, 0));

    plan.outputs[0].1.truncate(MAX_INPUT - 1_000);
    let body = plan.draft();
    let mut proof = Draft::default();
    proof.byte(1);
    proof.varint(0);
    proof.varint(body.bytes.len() as u64);
    proof.append(&body);
    proof.raw(&[0xbb; 32]);
    proof.varint(0);
    assert!(check_tsc(&proof.bytes).is_ok());
}
