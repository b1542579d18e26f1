//! Judging bundles.

use barrowtide::Record;
use reference::generate::bundle::Plan;
use reference::generate::random::Random;
use reference::judge::judge;
use reference::{beef, hex};

use crate::inputs::bundle::{
    all_spent, anchored_in_one, chain, chain_of_250_bytes, many_bumps, one_spent, two_in_turn,
    Order,
};
use crate::measure::{seconds, subject, time};
use crate::read::{heading, row, seconds_of};
use crate::stored::{join, sha256d};
use crate::yardstick::OpenSsl;

/// Prints the tables of bundles.
pub fn run() {
    println!("\nBundles judged");
    println!(
        "{:<34} {:>12} {:>12} {:>6} {:>22} {:>13} {:>9}",
        "", "library", "reference", "ratio", "hashing, of all time", "compressions", "for each"
    );
    let published = hex::decode(include_str!("../../tests/data/004-bundle.hex"));
    let root = reference::prove::all_clients(&published[5..290]).expect("004's BUMP");
    compare("004's, 2 transactions", &published, &root);

    let mut random = Random::of("judge");
    let chain = chain(&mut random, 256);
    compare("256 transactions, one anchored", &chain.draft().bytes, &chain.root_list());
    let forest = Plan { fee: 0, ..Plan::random(&mut random, 256) };
    compare("256 transactions, some anchored", &forest.draft().bytes, &forest.root_list());

    println!("\nBundles of transactions of 250 bytes, beside the hashing of these one by one");
    println!(
        "{:<34} {:>12} {:>12} {:>6} {:>12} {:>6}",
        "", "library", "hashing", "ratio", "OpenSSL", "ratio"
    );
    for count in [1, 2, 4, 256] {
        of_250_bytes(&mut random, count);
    }

    heading("Worst cases of judging");
    for height in [32, 64] {
        let name = format!("256 transactions in one BUMP of {height} full levels");
        worst(&name, &anchored_in_one(&mut random, height));
    }
    for order in [Order::Parents, Order::Any] {
        let name = format!("331,500 outputs of 255 spent, {}", order.words());
        worst(&name, &all_spent(&mut random, order));
    }
    worst("932,000 outputs, 200,000 of two spent in turn", &two_in_turn(&mut random));
    worst("400,000 inputs that spend one output (27)", &one_spent(&mut random));
    for (count, height) in [(64, 32), (26, 64)] {
        let name = format!("{count} BUMPs of {height} levels of 1,024 falling leaves");
        worst(&name, &many_bumps(&mut random, count, height));
    }
}

fn compare(name: &str, bundle: &[u8], roots: &[u8]) {
    let read = beef::read(bundle).expect("a well-formed bundle");
    let count = read.entries.len();
    let mut table = vec![Record::default(); count];
    let judged = barrowtide::judge_into(bundle, roots, 0, &mut table).expect("a sound bundle");
    assert_eq!(judged.transactions, count as u64);

    let transactions: Vec<&[u8]> = read
        .entries
        .iter()
        .map(|entry| &bundle[entry.transaction.start..][..entry.transaction.length])
        .collect();
    let height = |number: u64| read.bumps[number as usize].path.tree_height();
    let joins: u64 = read.entries.iter().filter_map(|entry| entry.anchor).map(height).sum();
    let node = [7; 32];
    let times = seconds(vec![
        subject(|| barrowtide::judge_into(bundle, roots, 0, &mut table)),
        subject(|| judge(bundle, roots, 0, count)),
        subject(|| transactions.iter().filter_map(|bytes| sha256d(bytes).ok()).count()),
        subject(|| join(&node, &node)),
    ]);
    println!(
        "{name:<34} {:>12} {:>12} {:>6.2} {:>20.0} % {:>13} {:>9}",
        time(times[0]),
        time(times[1]),
        times[0] / times[1],
        100.0 * (times[2] + joins as f64 * times[3]) / times[0],
        judged.work,
        time(times[0] / judged.work as f64)
    );
}

/// Prints the row of a chain of so many transactions of 250 bytes.
fn of_250_bytes(random: &mut Random, count: usize) {
    let plan = chain_of_250_bytes(random, count);
    let (bundle, roots) = (plan.draft().bytes, plan.root_list());
    let mut table = vec![Record::default(); count];
    let judged = barrowtide::judge_into(&bundle, &roots, 0, &mut table);
    assert_eq!(judged.map(|judged| judged.transactions), Ok(count as u64));
    let transactions: Vec<_> = plan.entries.iter().map(|entry| entry.0.draft().bytes).collect();
    assert!(transactions.iter().all(|bytes| bytes.len() == 250));
    let mut subjects = vec![
        subject(|| barrowtide::judge_into(&bundle, &roots, 0, &mut table)),
        subject(|| transactions.iter().filter_map(|bytes| sha256d(bytes).ok()).count()),
    ];
    if let Some(openssl) = OpenSsl::find() {
        let transactions = &transactions;
        subjects.push(subject(move || {
            transactions.iter().map(|bytes| openssl.sha256d(bytes)[0]).max()
        }));
    }
    let times = seconds(subjects);
    let others: String = times[1..]
        .iter()
        .map(|other| format!(" {:>12} {:>6.2}", time(*other), times[0] / other))
        .collect();
    println!("{:<34} {:>12}{others}", format!("{count} of them, one anchored"), time(times[0]));
}

fn worst(name: &str, plan: &Plan) {
    let (bundle, roots) = (plan.draft().bytes, plan.root_list());
    let count = plan.entries.len();
    let mut table = vec![Record::default(); count];
    let answer = barrowtide::judge_into(&bundle, &roots, 0, &mut table);
    let told = judge(&bundle, &roots, 0, count);
    assert_eq!(
        answer.map(|judged| (judged.transactions, judged.work)).map_err(|refusal| (
            refusal.reason.number(),
            refusal.carried,
            refusal.work
        )),
        told.answer.map(|count| (count, told.work)).map_err(|refusal| (
            refusal.number,
            refusal.carried,
            Some(told.work)
        ))
    );
    row(
        name,
        bundle.len(),
        seconds_of(|| barrowtide::judge_into(&bundle, &roots, 0, &mut table)),
        seconds_of(|| judge(&bundle, &roots, 0, count)),
    );
}
