//! The hash against the reference and against published values.

mod common;

use barrowtide::{ffi, hex, Hash, MAX_INPUT};
use common::{expected, plain, GUARDED};
use reference::generate::random::{rounds, Random};
use reference::hex::show;
use reference::sha256;

/// Compares the hash of `data` and lent memory after the call.
fn check_hash(data: &[u8]) {
    let told = sha256::hash(data);
    let (mut guarded, mut digest) = (GUARDED, [0xa5; 32]);
    let number = ffi::sha256d(data, &mut guarded.blame, &mut digest);
    assert_eq!((number, guarded, digest), expected(told, [0xa5; 32]), "{}", show(data));
    let safe = barrowtide::sha256d(data).map(|digest| *digest.stored());
    assert_eq!(safe.map_err(plain), told, "{}", show(data));
}

#[test]
fn published_values() {
    let hash = |data: &[u8]| barrowtide::sha256d(data).unwrap().to_string();
    let genesis =
        "0100000000000000000000000000000000000000000000000000000000000000000000003ba3edfd7a7b\
                   12b27ac72c3e67768f617fc81bc3888a51323a9fb8aa4b1e5e4a29ab5f49ffff001d1dac2b7c";
    assert_eq!(
        hash(&hex::decode(genesis).unwrap()),
        "000000000019d6689c085ae165831e934ff763ae46a2a6c172b3f1b60a8ce26f"
    );
    assert_eq!(hash(b""), "56944c5d3f98413ef45cf54545538103cc9f298e0575820ad3591376e2e0f65d");
    assert_eq!(hash(b"hello"), "503d8319a48348cdc610a582f7bf754b5833df65038606eb48510790dfc99595");
}

#[test]
fn every_short_length() {
    let data = Random::of("every_short_length").bytes(1_200);
    for length in 0..=1_100 {
        check_hash(&data[..length]);
        check_hash(&data[length % 64..][..length]);
    }
}

#[test]
fn random_messages() {
    let mut random = Random::of("random_messages");
    for _ in 0..rounds() {
        let length = random.number() % 20_000;
        check_hash(&random.bytes(length as usize));
    }
}

#[test]
fn greatest_input_and_one_more() {
    let data = Random::of("greatest_input").bytes(MAX_INPUT + 1);
    check_hash(&data[..MAX_INPUT]);
    check_hash(&data[1..]);
    check_hash(&data);
    assert!(barrowtide::sha256d(&data).is_err());
}

#[test]
fn chains_of_joins() {
    let mut random = Random::of("chains_of_joins");
    let (mut left, mut right) = (random.hash(), random.hash());
    for turn in 0..10 * rounds() {
        let mut parent = [0xa5; 32];
        ffi::join(&left, &right, &mut parent);
        assert_eq!(parent, sha256::join(&left, &right), "turn {turn}");
        let safe = barrowtide::join(&Hash::from_stored(left), &Hash::from_stored(right));
        assert_eq!(&parent, safe.stored(), "turn {turn}");
        if parent[0] % 2 == 0 {
            left = parent;
        } else {
            right = parent;
        }
    }
}

#[test]
fn joins_of_simple_nodes() {
    let nodes = [[0; 32], [0xff; 32], [0x80; 32], std::array::from_fn(|i| i as u8)];
    let nodes = nodes.map(Hash::from_stored);
    for left in &nodes {
        for right in &nodes {
            let told = sha256::join(left.stored(), right.stored());
            assert_eq!(barrowtide::join(left, right).stored(), &told);
            assert_eq!(
                Ok(barrowtide::join(left, right)),
                barrowtide::sha256d(&Hash::end_to_end(&[*left, *right]))
            );
        }
    }
}
