//! Reading paths, and searching in what was read.

use barrowtide::{prove_page_into, Answer, MAX_PAGE};
use reference::generate::path::Plan;
use reference::generate::random::Random;
use reference::page::prove_page;
use reference::Hash;
use reference::{bump, tsc};

use crate::inputs::path::{apart, falling, rise, shuffle, small_bump, small_tsc, without_siblings};
use crate::measure::{seconds, subject, time, time_of};

/// Prints the tables of reading a path and of searching in it.
pub fn run() {
    heading("Reading small paths");
    for height in [32, 64] {
        let path = small_bump(height);
        let name = format!("BUMP, {height} levels of one leaf");
        let levels = quick_row(&name, &path, barrowtide::read_bump, bump::read);
        let proof = small_tsc(height);
        let name = format!("TSC proof of {height} nodes");
        let nodes = quick_row(&name, &proof, barrowtide::read_tsc, tsc::read);
        println!(
            "{:<85} {:>6.2}",
            "the library's time for the BUMP over that for the TSC proof",
            levels / nodes
        );
    }

    heading("Worst cases of reading");
    let mut random = Random::of("read");
    for height in [32, 64] {
        for (name, copies) in [("hashes", false), ("copies", true)] {
            let mut path = falling(height, copies);
            large_row(&format!("BUMP, {height} levels of 1,024 falling {name}"), &path);
            rise(&mut path);
            large_row(&format!("BUMP, {height} levels of 1,024 rising {name}"), &path);
            shuffle(&mut random, &mut path);
            large_row(&format!("BUMP, {height} levels of 1,024 shuffled {name}"), &path);
        }
        let mut path = falling(height, true);
        apart(&mut path);
        large_row(&format!("BUMP, {height} levels of falling copies 4,096 apart"), &path);
    }
    searches(&mut random);
}

fn large_row(name: &str, path: &Plan) {
    let path = path.bump().bytes;
    row(
        name,
        path.len(),
        seconds_of(|| barrowtide::read_bump(&path).expect("a well-formed path")),
        seconds_of(|| bump::read(&path).expect("a well-formed path")),
    );
}

/// Pages of ids that make a search and no join: ids that no leaf carries, and ids whose sibling is
/// not written.
fn searches(random: &mut Random) {
    heading("Searching a level of 1,024 leaves for 256 ids");
    let ids: Vec<Hash> = (0..1_024).map(|_| random.hash()).collect();
    let path = without_siblings(&ids).bump().bytes;
    let absent: Vec<Hash> = (0..MAX_PAGE).map(|_| random.hash()).collect();
    search("ids that are not there", &path, &absent);
    search("ids at the end, then their siblings", &path, &ids[1_024 - MAX_PAGE..]);
}

fn search(name: &str, path: &[u8], ids: &[Hash]) {
    let ids = ids.as_flattened();
    let mut answers = [Answer::default(); MAX_PAGE];
    prove_page_into(path, ids, &mut answers).expect("a well-formed path");
    assert!(answers.iter().all(|answer| answer.refusal != 0));
    let times = seconds(vec![
        subject(|| prove_page_into(path, ids, &mut answers)),
        subject(|| prove_page(path, ids, MAX_PAGE)),
    ]);
    row(name, path.len(), times[0], times[1]);
}

/// Prints a row of a quick call, and gives the library's time.
fn quick_row<T, U>(
    name: &str,
    data: &[u8],
    library: impl Fn(&[u8]) -> T,
    reference: impl Fn(&[u8]) -> U,
) -> f64 {
    let times = seconds(vec![subject(|| library(data)), subject(|| reference(data))]);
    row(name, data.len(), times[0], times[1]);
    times[0]
}

/// Prints the heading of a table of worst cases.
pub fn heading(name: &str) {
    println!("\n{name}");
    println!("{:<48} {:>10} {:>12} {:>12} {:>6}", "", "bytes", "library", "reference", "ratio");
}

/// Prints a row of it.
pub fn row(name: &str, bytes: usize, library: f64, reference: f64) {
    let ratio = library / reference;
    let (library, reference) = (time(library), time(reference));
    println!("{name:<48} {bytes:>10} {library:>12} {reference:>12} {ratio:>6.2}");
}

/// The seconds of a call that takes long: the least of three, or the first if it lasts a second.
pub fn seconds_of<T>(call: impl FnMut() -> T) -> f64 {
    let mut subject = subject(call);
    let mut least = f64::INFINITY;
    for _ in 0..3 {
        least = least.min(time_of(&mut subject, 1).as_secs_f64());
        if least > 1.0 {
            break;
        }
    }
    least
}
