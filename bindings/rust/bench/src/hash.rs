//! The hash: one great message, many small ones, and joins.

use barrowtide::MAX_INPUT;
use reference::generate::random::Random;
use reference::sha256;
use reference::Hash;

use crate::measure::{seconds, subject, time, Subject};
use crate::stored;
use crate::yardstick::{plain, OpenSsl};

/// Prints the table of the hash.
pub fn run() {
    let openssl = OpenSsl::find();
    println!("\nDouble SHA-256");
    if openssl.is_none() {
        println!("(OpenSSL: no libcrypto.so was found, so it is not available)");
    }
    println!(
        "{:<20} {:>12} {:>12} {:>6} {:>12} {:>6} {:>12} {:>6}",
        "", "library", "plain C", "ratio", "OpenSSL", "ratio", "reference", "ratio"
    );
    let data = Random::of("hash").bytes(MAX_INPUT);
    message(openssl, "message of 16 MiB", &data);
    message(openssl, "message of 250 bytes", &data[..250]);
    join(openssl, &data);
}

fn message(openssl: Option<OpenSsl>, name: &str, data: &[u8]) {
    let digest = stored::sha256d(data);
    assert_eq!(digest, Ok(plain(data)));
    let mut subjects = vec![
        subject(|| stored::sha256d(data)),
        subject(|| plain(data)),
        subject(|| sha256::hash(data)),
    ];
    if let Some(openssl) = openssl {
        assert_eq!(digest, Ok(openssl.sha256d(data)));
        subjects.push(subject(move || openssl.sha256d(data)));
    }
    row(name, subjects);
}

/// A chain of joins: each is hashed with the last, so that no two overlap.
fn join(openssl: Option<OpenSsl>, data: &[u8]) {
    let right: Hash = std::array::from_fn(|i| data[i]);
    let pair = move |left: &Hash| -> [u8; 64] {
        std::array::from_fn(|i| if i < 32 { left[i] } else { right[i - 32] })
    };
    let mut subjects = vec![
        chain(move |left| stored::join(&left, &right)),
        chain(move |left| plain(&pair(&left))),
        chain(move |left| sha256::join(&left, &right)),
    ];
    if let Some(openssl) = openssl {
        subjects.push(chain(move |left| openssl.sha256d(&pair(&left))));
    }
    row("join of two nodes", subjects);
}

fn chain<'a>(join: impl Fn(Hash) -> Hash + 'a) -> Subject<'a> {
    let mut left = [7; 32];
    subject(move || {
        left = join(left);
        left
    })
}

/// Prints a row; the subjects are the library, plain C, the reference and perhaps OpenSSL.
fn row(name: &str, subjects: Vec<Subject>) {
    let times = seconds(subjects);
    let library = times[0];
    let beside = |index: usize| match times.get(index) {
        Some(other) => (time(*other), format!("{:.2}", library / other)),
        None => ("-".to_string(), "-".to_string()),
    };
    let ((plain, p), (reference, r), (openssl, o)) = (beside(1), beside(2), beside(3));
    println!(
        "{name:<20} {:>12} {plain:>12} {p:>6} {openssl:>12} {o:>6} {reference:>12} {r:>6}",
        time(library)
    );
}
