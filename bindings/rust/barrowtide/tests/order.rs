//! Putting transactions in order: the library against the reference, the lent row included, and
//! proposals of any length with any numbers.

mod common;

use barrowtide::{ffi, Blames, MAX_INPUT};
use common::{expected, plain, FILL, GUARDED};
use reference::generate::damage::{field_edits, random_edit, truncations};
use reference::generate::random::{rounds, Random};
use reference::generate::set;
use reference::generate::tally::Tally;
use reference::generate::transaction::Plan;
use reference::hex::{expand, show};
use reference::order::{self, Fault};
use reference::refusal::Refusal;

/// What the number of a transaction holds before a call.
const UNTOLD: u64 = FILL ^ 9;

/// Number, blame and transaction of a call, as they must be after what the reference says.
fn wanted<T>(told: &Result<T, Fault>) -> (u32, common::Guarded, u64) {
    let transaction = told.as_ref().err().map_or(0, |fault| fault.transaction);
    let answer = told.as_ref().map(|_| UNTOLD).map_err(|fault| fault.refusal);
    expected(answer, transaction)
}

/// A wrapper's refusal in the reference's words.
fn fault(refusal: barrowtide::Refusal) -> Fault {
    let place = refusal.blames == Blames::Place;
    assert_eq!(refusal.in_transaction.is_some(), place, "{refusal}");
    Fault { refusal: plain(refusal), transaction: refusal.in_transaction.unwrap_or(0) }
}

/// Compares the library's order and a whole row of `room` numbers; gives the order.
fn check(data: &[u8], count: u64, room: usize) -> Result<Vec<u64>, Fault> {
    let told = order::order(data, count, room);
    let describe = || format!("{} of {}; room {room}", count, show(data));
    let mut left = vec![FILL; room];
    match &told {
        Ok(order) => left[..order.len()].copy_from_slice(order),
        Err(_) => left.fill(0),
    }

    // The row lent is the middle of a longer one.
    let (mut guarded, mut row, mut transaction) = (GUARDED, vec![FILL; room + 2], UNTOLD);
    let lent = &mut row[1..=room];
    let number = ffi::order(data, count, lent, &mut guarded.blame, &mut transaction);
    assert_eq!((number, guarded, transaction), wanted(&told), "{}", describe());
    assert_eq!(row[1..=room], left, "{}", describe());
    assert_eq!([row[0], row[room + 1]], [FILL; 2], "{}", describe());

    let mut row = vec![FILL; room];
    let safe = barrowtide::order_into(data, count, &mut row).map_err(fault);
    assert_eq!(safe, told.clone().map(drop), "{}", describe());
    assert_eq!(row, left, "{}", describe());
    if room as u64 >= count {
        assert_eq!(barrowtide::order(data, count).map_err(fault), told, "{}", describe());
    }
    told
}

/// Compares what the checker says of a proposal, which stays as it was.
fn check_proposal(data: &[u8], count: u64, proposal: &[u64]) -> Result<(), Fault> {
    let told = order::check(data, count, proposal);
    let describe = || format!("{} of {}; proposal {proposal:?}", count, show(data));
    let lent = proposal.to_vec();
    let (mut guarded, mut transaction) = (GUARDED, UNTOLD);
    let number = ffi::check_order(data, count, &lent, &mut guarded.blame, &mut transaction);
    assert_eq!((number, guarded, transaction), wanted(&told), "{}", describe());
    assert_eq!(lent, proposal, "{}", describe());
    let safe = barrowtide::check_order(data, count, proposal).map_err(fault);
    assert_eq!(safe, told, "{}", describe());
    told
}

fn refused<T>(number: u32, carried: u64, transaction: u64) -> Result<T, Fault> {
    Err(Fault { refusal: Refusal::new(number, carried), transaction })
}

/// A transaction of 60 bytes: one input and one output without scripts.
const SMALL: &str = "01 00 00 00 01 [aa] 00 00 00 00 00 ff{4} 01 e8 03 00{6} 00 00{4}";

#[test]
fn examples() {
    let small = expand(SMALL);
    let with = |more: &str| [&small[..], &expand(more)].concat();
    // The bytes end between two: the next one's number; of 9 the count.
    assert_eq!(check(&small, 2, 2), refused(2, 60, 1));
    assert_eq!(check(&with("07"), 1, 0), refused(9, 60, 1));
    assert_eq!(check(&with("01 00 00 00 00"), 2, 0), refused(11, 64, 1));
    assert_eq!(check(&with("01 00 00 00 fd 01 00"), 2, 0), refused(3, 64, 1));
    // 64 bytes, at the first of them; before 9.
    let sized = "01 00 00 00 01 [aa] 00 00 00 00 04 51{4} ff{4} 01 e8 03 00{6} 00 00{4}";
    assert_eq!(check(&with(sized), 2, 2), refused(11, 60, 1));
    assert_eq!(check(&with(&format!("{sized} 00")), 2, 2), refused(11, 60, 1));
    assert_eq!(check(&expand(&format!("{sized} {SMALL}")), 2, 0), refused(11, 0, 0));
    assert_eq!(check_proposal(&with(sized), 2, &[7]), refused(11, 60, 1));
    // 5, 1, reading, 19, 22.
    assert_eq!(check(&[7], 257, 0), refused(5, 0, 0));
    assert_eq!(check(&vec![7; MAX_INPUT + 1], 257, 300), refused(5, 0, 0));
    assert_eq!(check(&vec![7; MAX_INPUT + 1], 256, 300), refused(1, 0, 0));
    assert_eq!(check(&[7; 3], u64::MAX, 1), refused(5, 0, 0));
    assert_eq!(check(&with(SMALL), 2, 0), refused(19, 0, 0));
    assert_eq!(check(&small, 1, 0), refused(22, 0, 0));
    assert_eq!(check(&small, 1, 1), Ok(vec![0]));
    // A set of none has the empty order alone.
    assert_eq!(check(&[], 0, 0), Ok(vec![]));
    assert_eq!(check(&[], 0, 3), Ok(vec![]));
    assert_eq!(check(&[7], 0, 0), refused(9, 0, 0));
    assert_eq!(check_proposal(&[], 0, &[]), Ok(()));
    assert_eq!(check_proposal(&[], 0, &[0]), refused(30, 0, 0));
    // A proposal is looked at last.
    assert_eq!(check_proposal(&with(SMALL), 2, &[7]), refused(19, 0, 0));
    assert_eq!(check_proposal(&small, 2, &[7]), refused(2, 60, 1));
    assert_eq!(check_proposal(&small, 257, &[0]), refused(5, 0, 0));
    for number in [1, 255, 256, 1 << 32, u64::MAX] {
        assert_eq!(check_proposal(&small, 1, &[number]), refused(30, 0, 0));
    }
    assert_eq!(check_proposal(&small, 1, &[]), refused(30, 0, 0));
    assert_eq!(check_proposal(&small, 1, &[0, 0]), refused(30, 0, 0));
    assert_eq!(check_proposal(&small, 1, &[0]), Ok(()));
    assert_eq!(check_proposal(&small, 1, &vec![0; 100_000]), refused(30, 0, 0));
    // Any amounts, and an input that spends its own transaction's neighbour twice.
    let mut random = Random::of("order examples");
    let own = Plan::spending(&mut random, &[([7; 32], 0)], &[u64::MAX, u64::MAX]);
    let child = Plan::spending(&mut random, &[(own.id(), 9), (own.id(), 9)], &[1]);
    let data = set::draft(&[child, own]).bytes;
    assert_eq!(check(&data, 2, 2), Ok(vec![1, 0]));
}

/// All lists of `length` numbers up to `most`.
fn lists(length: usize, most: u64) -> Vec<Vec<u64>> {
    let mut lists = vec![Vec::new()];
    for _ in 0..length {
        lists = lists
            .iter()
            .flat_map(|list| (0..=most).map(move |number| [&list[..], &[number]].concat()))
            .collect();
    }
    lists
}

/// All orders of so many.
fn orders(count: u64) -> Vec<Vec<u64>> {
    let once = |list: &Vec<u64>| (0..count).all(|number| list.contains(&number));
    lists(count as usize, count.saturating_sub(1)).into_iter().filter(once).collect()
}

/// Each way in which so many transactions can spend earlier ones.
fn all_parents(count: usize) -> Vec<Vec<Vec<usize>>> {
    let pairs: Vec<_> =
        (0..count).flat_map(|late| (0..late).map(move |early| (early, late))).collect();
    let parents = |chosen: u32| {
        let mut parents = vec![Vec::new(); count];
        for (bit, (early, late)) in pairs.iter().enumerate() {
            if chosen >> bit & 1 == 1 {
                parents[*late].push(*early);
            }
        }
        parents
    };
    (0..1 << pairs.len()).map(parents).collect()
}

/// Every set of up to four transactions by who spends whom, handed in in every order. Of three every
/// proposal of up to four numbers is tried, of four every order. Ours is the first that passes.
#[test]
fn all_small_sets() {
    let mut random = Random::of("small sets");
    let (mut passed, mut failed) = (0, 0);
    for count in 0..=4 {
        for parents in all_parents(count) {
            let plans = set::spending(&mut random, &parents);
            for handed in orders(count as u64) {
                let plans: Vec<Plan> =
                    handed.iter().map(|number| plans[*number as usize].clone()).collect();
                let (data, count) = (set::draft(&plans).bytes, count as u64);
                let ours = check(&data, count, plans.len()).expect("an order");
                let proposals: Vec<Vec<u64>> = match count {
                    0..=3 => (0..=4).flat_map(|length| lists(length, count)).collect(),
                    _ => orders(count),
                };
                let passing: Vec<&Vec<u64>> = proposals
                    .iter()
                    .filter(|proposal| check_proposal(&data, count, proposal).is_ok())
                    .collect();
                assert_eq!(passing.iter().min(), Some(&&ours));
                passed += passing.len();
                failed += proposals.len() - passing.len();
            }
        }
    }
    assert!(passed > 7_000 && failed > 40_000, "{passed} passed, {failed} failed");
}

/// Every change of one field in small sets, and every truncation, with counts about theirs.
#[test]
fn damaged_fields() {
    let mut random = Random::of("damaged sets");
    let mut tally = Tally::default();
    let mut numbers = [0; 4];
    for _ in 0..3 {
        let draft = set::draft(&set::random(&mut random, 3));
        let cuts = truncations(&draft.bytes).map(<[u8]>::to_vec);
        for data in field_edits(&draft).chain(cuts) {
            let count = random.pick(&[3, 3, 3, 2, 4]);
            let room = random.pick(&[3, 3, 0, 2, 9]);
            let told = check(&data, count, room);
            check_proposal(&data, count, &[0, 1, 2]).ok();
            if let Err(fault) = &told {
                numbers[fault.transaction.min(3) as usize] += 1;
            }
            tally.note(told.map_err(|fault| fault.refusal));
        }
    }
    tally.assert_met(&[0, 2, 3, 9, 11, 22]);
    assert!(numbers.iter().all(|met| *met > 0), "{numbers:?}");
}

/// An order that is nearly one.
fn spoilt(random: &mut Random, order: &[u64]) -> Vec<u64> {
    let mut order = order.to_vec();
    let length = order.len();
    let number = random.pick(&[0, 1, length as u64, 255, 256, 1 << 32, u64::MAX]);
    match (random.within(0..=6), length) {
        (0, _) => order.push(number),
        (_, 0) => {}
        (1, _) => drop(order.pop()),
        (2, _) => order[random.index(length)] = number,
        (3, _) => order[random.index(length)] = order[random.index(length)],
        (4, _) => drop(order.remove(random.index(length))),
        (5, _) => random.shuffle(&mut order),
        (_, _) => order.swap(random.index(length), random.index(length)),
    }
    order
}

/// Sets at random, sound and damaged, some with a transaction handed in twice; rows that are shorter
/// and longer than the set; our order and others that are nearly one.
#[test]
fn random_sets() {
    let mut random = Random::of("sets");
    let mut tally = Tally::default();
    for round in 0..rounds() {
        let count = match round % 200 {
            0 => random.within(200..=256) as usize,
            n if n % 10 == 0 => random.within(20..=60) as usize,
            _ => random.within(0..=9) as usize,
        };
        let mut plans = set::random(&mut random, count);
        if random.one_in(10) && count > 0 {
            let again = plans[random.index(count)].clone();
            plans[random.index(count)] = again;
        }
        if random.one_in(10) && count > 0 {
            let length = random.within(63..=65) as usize;
            plans[random.index(count)].shrink(&mut random, length);
        }
        let draft = set::draft(&plans);
        let data = match random.one_in(4) {
            true => random_edit(&mut random, &draft),
            false => draft.bytes,
        };
        let told = match random.one_in(8) {
            true => random.pick(&[0, 1, count as u64 + 1, 256, 257, u64::MAX]),
            false => count as u64,
        };
        let room = match random.one_in(4) {
            true => random.within(0..=count as u64 + 3) as usize,
            false => count.max(told.min(300) as usize),
        };
        let answer = check(&data, told, room);
        let ours = answer.clone().unwrap_or_else(|_| (0..count as u64).collect());
        tally.note(check_proposal(&data, told, &ours).map_err(|fault| fault.refusal));
        let other = spoilt(&mut random, &ours);
        tally.note(check_proposal(&data, told, &other).map_err(|fault| fault.refusal));
        if answer.is_ok() {
            assert_eq!(check_proposal(&data, told, &ours), Ok(()));
        }
        tally.note(answer.map_err(|fault| fault.refusal));
    }
    if rounds() >= 1_000 {
        tally.assert_met(&[0, 2, 3, 5, 9, 11, 19, 22, 30]);
    }
}

/// The largest sets: chains from both ends, all children of one, all parents of one, ids that nobody
/// spends, and one transaction more.
#[test]
fn large_sets() {
    let mut random = Random::of("large sets");
    let chain = |number: usize| -> Vec<usize> { number.checked_sub(1).into_iter().collect() };
    let one_parent = |number: usize| -> Vec<usize> {
        if number == 0 {
            vec![]
        } else {
            vec![0]
        }
    };
    let one_child = |number: usize| -> Vec<usize> {
        if number < 255 {
            vec![]
        } else {
            (0..255).collect()
        }
    };
    let nearest = |number: usize| -> Vec<usize> { (number.saturating_sub(9)..number).collect() };
    let shapes: [&dyn Fn(usize) -> Vec<usize>; 5] =
        [&chain, &one_parent, &one_child, &nearest, &|_| vec![]];
    for shape in shapes {
        let parents: Vec<Vec<usize>> = (0..256).map(shape).collect();
        let mut plans = set::spending(&mut random, &parents);
        for turn in 0..3 {
            match turn {
                0 => {}
                1 => plans.reverse(),
                _ => random.shuffle(&mut plans),
            }
            let data = set::draft(&plans).bytes;
            let ours = check(&data, 256, 256 + turn).expect("an order");
            assert_eq!(ours.len(), 256);
            assert_eq!(check_proposal(&data, 256, &ours), Ok(()));
            assert_eq!(check(&data, 256, 255), refused(22, 0, 0));
            for _ in 0..20 {
                let other = spoilt(&mut random, &ours);
                check_proposal(&data, 256, &other).ok();
            }
            let more = [&data[..], &expand(SMALL)].concat();
            assert_eq!(check(&more, 257, 257), refused(5, 0, 0));
            assert_eq!(check(&more, 256, 256), refused(9, data.len() as u64, 256));
            assert_eq!(check(&data, 255, 256).map_err(|fault| fault.refusal.number), Err(9));
        }
    }
}
