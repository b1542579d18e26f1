//! Published inputs, and changes of them.

use crate::hex::decode;

/// 004's bundle without the leaf at offset 20 of level 0, the sibling of its first transaction.
pub fn without_sibling() -> Vec<u8> {
    let mut bundle = decode(include_str!("../../tests/data/004-bundle.hex"));
    let count = 4 + 1 + 5 + 1;
    assert_eq!(bundle[count..count + 3], [2, 20, 0]);
    bundle[count] = 1;
    bundle.drain(count + 1..count + 1 + 34);
    bundle
}
