//! Tables of calls whose work is known in joins: beside the reference, beside the joins alone, and
//! beside as many by OpenSSL.

use crate::measure::{seconds, subject, time, Subject};
use crate::read::seconds_of;
use crate::stored::join;
use crate::yardstick::OpenSsl;

/// Prints the heading of such a table.
pub fn heading(name: &str) {
    heading_of(name, &["reference", "joins alone", "OpenSSL"]);
}

/// The same beside something else.
pub fn heading_beside(name: &str, other: &str) {
    heading_of(name, &["reference", other]);
}

/// The heading of a table of calls beside the most joins that they may make.
pub fn heading_most(name: &str) {
    heading_of(name, &["joins alone"]);
}

/// Prints a row of it.
pub fn most<T>(name: &str, joins: usize, library: impl FnMut() -> T) {
    print(name, &[seconds_of(library), seconds_of(alone(joins))]);
}

/// The heading of a table of calls that do at once what single calls do one by one.
pub fn heading_at_once(name: &str) {
    heading_of(name, &["single calls", "OpenSSL"]);
}

fn heading_of(name: &str, others: &[&str]) {
    let others: String =
        others.iter().map(|other| format!(" {other:>12} {:>6}", "ratio")).collect();
    println!("\n{name}\n{:<42} {:>12}{others}", "", "library");
}

/// Prints a row of it; `joins` is how many the call makes.
pub fn row(name: &str, joins: usize, library: Subject, reference: Subject) {
    print(name, &seconds(beside_joins(joins, library, reference)));
}

/// The same for calls that take long.
pub fn long_row(name: &str, joins: usize, library: Subject, reference: Subject) {
    let subjects = beside_joins(joins, library, reference);
    print(name, &subjects.into_iter().map(seconds_of).collect::<Vec<_>>());
}

fn beside_joins<'a>(
    joins: usize,
    library: Subject<'a>,
    reference: Subject<'a>,
) -> Vec<Subject<'a>> {
    let mut subjects = vec![library, reference, alone(joins)];
    subjects.extend(OpenSsl::find().map(|openssl| by_openssl(openssl, joins)));
    subjects
}

/// Prints a row of a table of calls at once; `joins` is how many the single calls make.
pub fn at_once(name: &str, joins: usize, library: Subject, single: Subject) {
    let mut subjects = vec![library, single];
    subjects.extend(OpenSsl::find().map(|openssl| by_openssl(openssl, joins)));
    print(name, &seconds(subjects));
}

/// So many joins, one after the other.
fn alone(joins: usize) -> Subject<'static> {
    let node = [7; 32];
    subject(move || (0..joins).fold(node, |last, _| join(&last, &node)))
}

/// The same by OpenSSL.
fn by_openssl(openssl: OpenSsl, joins: usize) -> Subject<'static> {
    let mut pair = [7; 64];
    subject(move || {
        for _ in 0..joins {
            let parent = openssl.sha256d(&pair);
            pair[..32].copy_from_slice(&parent);
        }
        pair
    })
}

/// Prints a row of the times of the library and of what it stands beside.
pub fn print(name: &str, times: &[f64]) {
    let library = times[0];
    let others: String = times[1..]
        .iter()
        .map(|other| format!(" {:>12} {:>6.2}", time(*other), library / other))
        .collect();
    println!("{name:<42} {:>12}{others}", time(library));
}
