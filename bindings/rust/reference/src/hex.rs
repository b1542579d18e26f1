//! Hex of bytes in stored order, and of hashes in printed order, which is its reverse (000).

use crate::Hash;

/// Lower-case hex of the bytes as they stand.
pub fn encode(bytes: &[u8]) -> String {
    bytes.iter().map(|byte| format!("{byte:02x}")).collect()
}

/// Lower-case hex in printed order.
pub fn printed(hash: &Hash) -> String {
    hash.iter().rev().map(|byte| format!("{byte:02x}")).collect()
}

/// The bytes that hex digits stand for, white space ignored; the text is a test's own, so anything
/// else is a panic.
pub fn decode(text: &str) -> Vec<u8> {
    let digits: Vec<u8> = text
        .chars()
        .filter(|c| !c.is_whitespace())
        .map(|c| c.to_digit(16).unwrap_or_else(|| panic!("no hex digit: {c:?}")) as u8)
        .collect();
    assert!(digits.len() % 2 == 0, "an odd number of hex digits");
    digits.chunks_exact(2).map(|pair| pair[0] << 4 | pair[1]).collect()
}

/// The bytes of an example: hex bytes, `[aa]` for 32 bytes `aa`, and `aa{n}` for n of them.
pub fn expand(example: &str) -> Vec<u8> {
    let word = |word: &str| {
        let (byte, times) = match word.strip_prefix('[') {
            Some(rest) => (rest.trim_end_matches(']'), 32),
            None => match word.trim_end_matches('}').split_once('{') {
                Some((byte, times)) => (byte, times.parse().expect("a number of bytes")),
                None => (word, 1),
            },
        };
        decode(byte).repeat(times)
    };
    example.split_whitespace().flat_map(word).collect()
}

/// An input as a failing test shows it: its length and its first bytes.
pub fn show(data: &[u8]) -> String {
    let shown = &data[..data.len().min(2_000)];
    format!(
        "{} bytes: {}{}",
        data.len(),
        encode(shown),
        if shown.len() < data.len() { ".." } else { "" }
    )
}

#[cfg(test)]
mod tests {
    use super::*;

    #[test]
    fn examples_expand() {
        assert_eq!(
            expand("00 01fd [aa] bb{2}"),
            [&[0x00, 0x01, 0xfd][..], &[0xaa; 32], &[0xbb; 2]].concat()
        );
    }
}
