//! A transaction in parts beside the reader of the whole.

use barrowtide::{read_transaction, Received, Refusal, TransactionReader};
use reference::generate::random::Random;
use reference::generate::transaction::Plan;

use crate::inputs::transaction::with;
use crate::measure::{seconds, subject, time};

/// Prints the table of transactions in parts.
pub fn run() {
    println!("\nA transaction in parts: the time over that for reading the whole, with its id");
    let columns = ["64 KiB", "4 KiB", "64 bytes", "1 byte"];
    print!("{:<44} {:>10} {:>12}", "", "bytes", "whole");
    columns.iter().for_each(|column| print!(" {column:>9}"));
    println!(" {:>12}", "a byte alone");
    let mut random = Random::of("parts");
    row("226 bytes", with(1, random.bytes(107), 2));
    row("20,000 inputs of 148 bytes", with(20_000, vec![7; 107], 2));
    row("40,000 inputs of 41 bytes", with(40_000, Vec::new(), 2));
    row("40,000 outputs of 34 bytes", with(1, Vec::new(), 40_000));
    row("a script of 3,000,000 bytes", with(1, random.bytes(3_000_000), 2));
}

fn row(name: &str, plan: Plan) {
    let data = plan.draft().bytes;
    let data = &data[..];
    let id = read_transaction(data).expect("a transaction").id;
    let mut subjects = vec![subject(|| read_transaction(data))];
    for size in [1 << 16, 1 << 12, 64, 1] {
        assert_eq!(received(data, size).expect("a transaction").id, id);
        subjects.push(subject(move || received(data, size)));
    }
    let times = seconds(subjects);
    print!("{name:<44} {:>10} {:>12}", data.len(), time(times[0]));
    times[1..].iter().for_each(|parts| print!(" {:>9.2}", parts / times[0]));
    println!(" {:>12}", time(times[4] / data.len() as f64));
}

/// Reads a transaction in parts of a size.
fn received(data: &[u8], size: usize) -> Result<Received, Refusal> {
    let mut reader = TransactionReader::new();
    for part in data.chunks(size) {
        reader.push(part)?;
    }
    reader.finish()
}
