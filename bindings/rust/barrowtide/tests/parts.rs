//! A raw transaction in parts: the library against the reference after every call, the lent state
//! between guards, and states that no start made.

mod common;

use std::io::{self, Write};

use barrowtide::ffi::{self, Parts, MORE};
use barrowtide::{read_transaction, Received, TransactionReader};
use common::{expected, plain, FILL, GUARDED};
use reference::generate::damage::{field_edits, random_edit, truncations};
use reference::generate::random::{rounds, Random};
use reference::generate::tally::Tally;
use reference::generate::transaction::Plan;
use reference::hex::{expand, show};
use reference::parts::{self, Reader, MAX_PARTS};
use reference::refusal::Refusal;

type Answer = Result<parts::Received, Refusal>;

/// What is lent for what was received holds this before a call.
const FILLED: parts::Received =
    parts::Received { length: FILL, inputs: FILL ^ 5, outputs: FILL ^ 6, id: [0xa5; 32] };

/// A lent state between two numbers that no call may touch.
#[derive(Debug, Clone, Copy, PartialEq, Eq)]
#[repr(C)]
struct Lent {
    before: u64,
    state: Parts,
    after: u64,
}

impl Lent {
    /// Lends a state with this in it.
    fn of(content: [u64; 30]) -> Self {
        Self { before: FILL ^ 7, state: Parts { content }, after: FILL ^ 8 }
    }

    fn check_guards(&self) {
        assert_eq!((self.before, self.after), (FILL ^ 7, FILL ^ 8));
    }
}

/// The library's calls, its reader, and the reference, over the same parts.
struct Both {
    lent: Lent,
    reader: TransactionReader,
    reference: Reader,
}

impl Both {
    /// All of them before the first byte, the lent state after whatever was in it.
    fn over(content: [u64; 30]) -> Self {
        let mut lent = Lent::of(content);
        ffi::parts_start(&mut lent.state);
        lent.check_guards();
        Self { lent, reader: TransactionReader::new(), reference: Reader::default() }
    }

    fn new() -> Self {
        Self::over([FILL; 30])
    }

    /// Compares number, blame and values of a call, and what its wrapper says.
    fn check(
        &mut self,
        told: Option<Answer>,
        call: impl FnOnce(&mut Parts, &mut ffi::Blame, &mut parts::Received) -> u32,
        safe: Result<Option<Received>, barrowtide::Refusal>,
    ) {
        let (mut guarded, mut values) = (GUARDED, FILLED);
        let number = call(&mut self.lent.state, &mut guarded.blame, &mut values);
        let wanted = told.map_or((MORE, GUARDED, FILLED), |answer| expected(answer, FILLED));
        assert_eq!((number, guarded, values), wanted);
        self.lent.check_guards();
        assert_eq!(safe.map(|received| received.map(values_of)).map_err(plain), told.transpose());
    }

    fn part(&mut self, part: &[u8]) -> Option<Answer> {
        let (told, safe) = (self.reference.part(part), self.reader.push(part));
        let call = |state: &mut Parts, blame: &mut ffi::Blame, v: &mut parts::Received| {
            let parts::Received { length, inputs, outputs, id } = v;
            ffi::parts_part(state, part, blame, length, inputs, outputs, id)
        };
        self.check(told, call, safe);
        told
    }

    fn end(&mut self) -> Answer {
        let (told, safe) = (self.reference.end(), self.reader.finish().map(Some));
        let call = |state: &mut Parts, blame: &mut ffi::Blame, v: &mut parts::Received| {
            let parts::Received { length, inputs, outputs, id } = v;
            ffi::parts_end(state, blame, length, inputs, outputs, id)
        };
        self.check(Some(told), call, safe);
        told
    }
}

fn values_of(received: Received) -> parts::Received {
    let Received { length, inputs, outputs, id } = received;
    parts::Received { length, inputs, outputs, id: *id.stored() }
}

/// Compares all calls over one cutting, then the calls after the end; gives the end's answer.
fn check<'a>(cutting: impl IntoIterator<Item = &'a [u8]>) -> Answer {
    let mut both = Both::new();
    for part in cutting {
        both.part(part);
    }
    let told = both.end();
    assert_eq!(both.part(b"\x01"), Some(told));
    assert_eq!(both.part(b""), Some(told));
    assert_eq!(both.end(), told);
    told
}

/// Compares bytes in one part, byte by byte, and cut once at each of these places; all must leave
/// one state and give the answer of the whole reader.
fn check_cuts(data: &[u8], places: impl IntoIterator<Item = usize>) -> Answer {
    let told = check([data]);
    let state = state_after([data]);
    assert_eq!(check(data.chunks(1)), told, "{}", show(data));
    assert_eq!(state_after(data.chunks(1)), state, "{}", show(data));
    for place in places {
        let (first, second) = data.split_at(place);
        assert_eq!(check([first, b"", second]), told, "{} cut at {place}", show(data));
        assert_eq!(state_after([first, second]), state, "{} cut at {place}", show(data));
    }
    let whole = read_transaction(data).map(|read| (read.inputs, read.outputs, *read.id.stored()));
    let parts = told.map(|told| (told.inputs, told.outputs, told.id));
    assert_eq!(whole.map_err(plain), parts, "{}", show(data));
    assert!(told.is_err() || told.is_ok_and(|told| told.length == data.len() as u64));
    told
}

fn state_after<'a>(cutting: impl IntoIterator<Item = &'a [u8]>) -> Parts {
    let mut both = Both::new();
    for part in cutting {
        both.part(part);
    }
    both.lent.state
}

fn refused<T>(number: u32, carried: u64) -> Result<T, Refusal> {
    Err(Refusal::new(number, carried))
}

/// A transaction of 60 bytes: one input and one output without scripts.
const SMALL: &str = "01 00 00 00 01 [aa] 00 00 00 00 00 ff{4} 01 e8 03 00{6} 00 00{4}";

/// The answers call by call.
#[test]
fn examples() {
    // Nothing came, or part of a VarInt: 2 at the end call only.
    assert_eq!(check([]), refused(2, 0));
    assert_eq!(check([b"".as_slice(), b""]), refused(2, 0));
    let mut both = Both::new();
    assert_eq!(both.part(&expand("01 00 00 00")), None);
    assert_eq!(both.part(&expand("fd 00")), None);
    assert_eq!(both.end(), refused(2, 4));
    assert_eq!(both.part(&expand("00")), Some(refused(2, 4)));
    // The part that completes a field tells of it, and no later one matters.
    let mut both = Both::new();
    assert_eq!(both.part(&expand("01 00 00 00 fd 00")), None);
    assert_eq!(both.part(&expand("00 00")), Some(refused(3, 4)));
    assert_eq!(both.part(b""), Some(refused(3, 4)));
    assert_eq!(both.part(&expand("ff")), Some(refused(3, 4)));
    assert_eq!(both.end(), refused(3, 4));
    assert_eq!(check([&expand("01 00 00 00 00")[..], b"\x01"]), refused(11, 4));
    // A whole transaction is no answer before the end; a byte after it is 9 at once.
    let small = expand(SMALL);
    let mut both = Both::new();
    assert_eq!(both.part(&small), None);
    assert_eq!(both.part(b""), None);
    let told = both.end().expect("a transaction");
    assert_eq!((told.length, told.inputs, told.outputs), (60, 1, 1));
    let mut both = Both::new();
    assert_eq!(both.part(&small), None);
    assert_eq!(both.part(b"\x00\x01"), Some(refused(9, 60)));
    assert_eq!(check([&small[..59], &small[59..], b"\x00"]), refused(9, 60));
}

/// 64 bytes are 11 at the first of them with the last, ahead of 9.
#[test]
fn node_sized() {
    let raw = expand("01 00 00 00 01 [aa] 00 00 00 00 04 51{4} ff{4} 01 e8 03 00{6} 00 00{4}");
    let mut both = Both::new();
    assert_eq!(both.part(&raw[..63]), None);
    assert_eq!(both.part(b""), None);
    assert_eq!(both.part(&raw[63..]), Some(refused(11, 0)));
    assert_eq!(both.part(b"\x00"), Some(refused(11, 0)));
    assert_eq!(both.end(), refused(11, 0));
    assert_eq!(check_cuts(&raw, 0..=64), refused(11, 0));
    assert_eq!(check_cuts(&[&raw[..], b"\x00"].concat(), 0..=65), refused(11, 0));
    assert_eq!(check_cuts(&raw[..63], 0..=63), refused(2, 60));
    // Wherever the four bytes stand; and one byte more or less is a transaction.
    let mut random = Random::of("parts of 64 bytes");
    for _ in 0..50 {
        let plan = Plan::node_sized(&mut random);
        assert_eq!(check_cuts(&plan.draft().bytes, 0..=64), refused(11, 0));
        for length in [63, 65, 128] {
            let mut plan = plan.clone();
            plan.shrink(&mut random, length);
            assert!(check_cuts(&plan.draft().bytes, 0..=length).is_ok());
        }
    }
}

/// Every cut of small transactions, of every change of one field in them and of every truncation.
#[test]
fn damaged_fields() {
    let mut random = Random::of("parts of damaged fields");
    let mut tally = Tally::default();
    for _ in 0..3 {
        let draft = Plan::random(&mut random).draft();
        tally.note(check_cuts(&draft.bytes, 0..=draft.bytes.len()));
        for edit in field_edits(&draft) {
            let place = random.within(0..=edit.len() as u64) as usize;
            tally.note(check_cuts(&edit, [place]));
        }
        for cut in truncations(&draft.bytes) {
            tally.note(check_cuts(cut, [cut.len() / 2]));
        }
    }
    tally.assert_met(&[0, 2, 3, 9, 11]);
}

/// Cuts at random, many of them between two bytes or at a block's end, with parts of nothing.
fn cutting<'a>(random: &mut Random, data: &'a [u8]) -> Vec<&'a [u8]> {
    let longest = random.pick(&[1, 3, 20, 63, 64, 65, 200, 5_000]);
    let mut parts = Vec::new();
    let mut rest = data;
    while !rest.is_empty() {
        let (part, later) =
            rest.split_at(random.within(0..=longest).min(rest.len() as u64) as usize);
        parts.push(part);
        rest = later;
    }
    parts
}

/// Sound transactions and damaged ones in any parts, one after the other in one state, which is
/// started afresh whatever came before; and calls in any order about the end.
#[test]
fn random_cuttings() {
    let mut random = Random::of("parts");
    let mut tally = Tally::default();
    let mut content = [FILL; 30];
    for _ in 0..rounds() {
        let mut plan = Plan::random(&mut random);
        if random.one_in(4) {
            let length = random.within(60..=68) as usize;
            plan.shrink(&mut random, length);
        }
        if random.one_in(20) {
            let length = random.pick(&[6_000, 65_535, 65_536]);
            plan.outputs[0].1 = random.bytes(length);
        }
        let draft = plan.draft();
        let data = match random.one_in(3) {
            true => draft.bytes,
            false => random_edit(&mut random, &draft),
        };
        let mut both = Both::over(content);
        let parts = cutting(&mut random, &data);
        let ends = random.one_in(10).then(|| random.index(parts.len() + 1));
        for (number, part) in parts.iter().enumerate() {
            if ends == Some(number) {
                both.end().ok();
            }
            both.part(part);
        }
        if ends.is_none() && random.one_in(2) {
            let whole = state_after([&data[..]]);
            assert_eq!(both.lent.state, whole, "{}", show(&data));
        }
        tally.note(both.end());
        for _ in 0..random.within(0..=3) {
            let length = random.index(5);
            let after = random.bytes(length);
            match random.one_in(2) {
                true => drop(both.part(&after)),
                false => drop(both.end()),
            }
        }
        content = both.lent.state.content;
    }
    if rounds() >= 1_000 {
        tally.assert_met(&[0, 2, 3, 9, 11]);
    }
}

/// Over states that no start and parts made, calls end and touch nothing but what is lent.
#[test]
fn any_states() {
    let mut random = Random::of("states");
    for _ in 0..4 * rounds() {
        let mut content = std::array::from_fn(|_| match random.within(0..=3) {
            0 => random.number(),
            1 => random.pick(&[u64::MAX, u64::MAX - 1, MAX_PARTS as u64, MAX_PARTS as u64 - 1]),
            2 => random.within(0..=13),
            _ => random.bits(),
        });
        if random.one_in(3) {
            // A sound state with a few numbers changed.
            content = state_after([&Plan::random(&mut random).draft().bytes[..50]]).content;
            for _ in 0..random.within(1..=3) {
                content[random.index(30)] = random.number();
            }
        }
        let mut lent = Lent::of(content);
        for _ in 0..random.within(1..=4) {
            let (mut guarded, mut v) = (GUARDED, FILLED);
            let length = random.pick(&[0, 1, 7, 64, 130, 1_000]);
            let part = random.bytes(length);
            let state = &mut lent.state;
            let parts::Received { length, inputs, outputs, id } = &mut v;
            if random.one_in(3) {
                ffi::parts_end(state, &mut guarded.blame, length, inputs, outputs, id);
            } else {
                ffi::parts_part(state, &part, &mut guarded.blame, length, inputs, outputs, id);
            }
            lent.check_guards();
            guarded.blame = GUARDED.blame;
            assert_eq!(guarded, GUARDED);
        }
        assert_eq!(Both::over(lent.state.content).lent.state, Both::new().lent.state);
    }
}

/// The reader as a writer.
#[test]
fn writes() {
    let small = expand(SMALL);
    let mut reader = TransactionReader::new();
    assert_eq!(io::copy(&mut &small[..], &mut reader).expect("taken"), 60);
    reader.flush().expect("nothing to do");
    assert_eq!(reader.write(b"").expect("taken"), 0);
    let mut other = reader.clone();
    let told = other.write_all(&[0]).expect_err("a byte too many");
    let refusal = told.get_ref().and_then(|inner| inner.downcast_ref::<barrowtide::Refusal>());
    assert_eq!(
        (told.kind(), refusal.copied().map(plain)),
        (io::ErrorKind::InvalidData, refused::<()>(9, 60).err())
    );
    assert!(reader.finish().is_ok());
    assert_eq!(reader.write_all(&[0]).expect_err("after the end").kind(), io::ErrorKind::WriteZero);
}

/// A transaction of 4,294,967,295 bytes, its refusals about that size, and its id.
#[test]
#[ignore = "reads 4 GiB three times: a minute or two"]
fn full_size() {
    const PART: usize = 1 << 16;
    // One input whose script takes all but 65 bytes, then the output's script is chosen.
    let script = MAX_PARTS - 65;
    let head = [&expand("01 00 00 00 01 [aa] 00 00 00 00 fe")[..], &(script as u32).to_le_bytes()];
    let head = head.concat();
    let tail = |length: u8| {
        let script = vec![7; length.into()];
        [&expand("ff{4} 01 00{8}")[..], &[length], &script, &[1, 2, 3, 4]].concat()
    };
    let mut reader = TransactionReader::new();
    let zeros = [0; PART];
    let fed = |reader: &mut TransactionReader, part: &[u8]| assert_eq!(reader.push(part), Ok(None));
    fed(&mut reader, &head);
    for _ in 0..script / PART {
        fed(&mut reader, &zeros);
    }
    fed(&mut reader, &zeros[..script % PART]);
    let answer = |bytes: &[u8]| {
        let mut reader = reader.clone();
        let told = reader.push(bytes);
        told.and_then(|_| reader.finish()).map(values_of).map_err(plain)
    };
    assert_eq!(answer(&tail(0)).map(|told| told.length), Ok(MAX_PARTS as u64 - 1));
    assert_eq!(answer(&[&tail(0)[..], &[0]].concat()), refused(9, MAX_PARTS as u64 - 1));
    assert_eq!(answer(&[&tail(0)[..], &[0; 9]].concat()), refused(9, MAX_PARTS as u64 - 1));
    assert_eq!(answer(&[&tail(1)[..], &[0]].concat()), refused(1, 0));
    assert_eq!(answer(&tail(2)), refused(1, 0));
    assert_eq!(answer(&tail(2)[..19]), refused(2, MAX_PARTS as u64 - 3));
    assert_eq!(answer(&expand("ff{4} 00 00{99}")), refused(11, script as u64 + 50));

    let mut whole = vec![0; MAX_PARTS];
    whole[..head.len()].copy_from_slice(&head);
    let last = tail(1);
    whole[MAX_PARTS - last.len()..].copy_from_slice(&last);
    let told = parts::read(&whole, MAX_PARTS);
    assert!(told.is_ok());
    assert_eq!(answer(&last), told);
}
