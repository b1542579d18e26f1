//! Hex text of bytes as they stand. That of a hash is in printed order: see
//! [`Hash`](struct@crate::Hash).

/// The bytes that hex digits stand for, white space between them left out; `None` for other text.
///
/// ```
/// use barrowtide::hex::decode;
/// assert_eq!(decode("0100 bEef\n"), Some(vec![0x01, 0x00, 0xbe, 0xef]));
/// assert_eq!(decode("010"), None);
/// assert_eq!(decode("0x01"), None);
/// ```
pub fn decode(text: &str) -> Option<Vec<u8>> {
    let visible = text.chars().filter(|c| !c.is_whitespace());
    let digits = visible.map(|c| c.to_digit(16)).collect::<Option<Vec<u32>>>()?;
    if digits.len() % 2 != 0 {
        return None;
    }
    Some(digits.chunks_exact(2).map(|pair| (pair[0] << 4 | pair[1]) as u8).collect())
}

/// The hex digits of bytes as they stand, lower case.
///
/// ```
/// assert_eq!(barrowtide::hex::encode(&[0x01, 0x00, 0xbe, 0xef]), "0100beef");
/// ```
pub fn encode(bytes: &[u8]) -> String {
    const DIGITS: &[u8; 16] = b"0123456789abcdef";
    let pair =
        |byte: &u8| [byte >> 4, byte & 15].map(|digit| char::from(DIGITS[usize::from(digit)]));
    bytes.iter().flat_map(pair).collect()
}
