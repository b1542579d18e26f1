//! SHA-256 as FIPS 180-4 writes it; "hash" in 01 is the double one.

use crate::refusal::{refuse, Refusal, TOO_LONG};
use crate::Hash;

/// 01's size of an input.
pub const MAX_INPUT: usize = 16_777_216;

/// 01's hash of any message, whatever its length.
pub fn sha256d(message: &[u8]) -> Hash {
    sha256(&sha256(message))
}

/// 01's call: the hash of a lent slice up to the input size, else 1.
pub fn hash(data: &[u8]) -> Result<Hash, Refusal> {
    if data.len() > MAX_INPUT {
        return refuse(TOO_LONG, 0);
    }
    Ok(sha256d(data))
}

/// The parent of two nodes.
pub fn join(left: &Hash, right: &Hash) -> Hash {
    sha256d(&[*left, *right].concat())
}

/// The first 32 bits of the fractional parts of the cube roots of the first 64 primes.
const K: [u32; 64] = fractions(3);
/// The same of the square roots; the first eight start the hash.
const H: [u32; 64] = fractions(2);

/// The first 32 fractional bits of the root of each of the first 64 primes.
const fn fractions(degree: u32) -> [u32; 64] {
    let mut values = [0; 64];
    let mut count = 0;
    let mut candidate: u128 = 2;
    while count < 64 {
        if is_prime(candidate) {
            values[count] = root(candidate << (32 * degree), degree) as u32;
            count += 1;
        }
        candidate += 1;
    }
    values
}

const fn is_prime(n: u128) -> bool {
    let mut d = 2;
    while d * d <= n {
        if n % d == 0 {
            return false;
        }
        d += 1;
    }
    true
}

/// The whole part of the root of `n`, for roots below 2^38.
const fn root(n: u128, degree: u32) -> u128 {
    let mut low: u128 = 0;
    let mut high: u128 = 1 << 38;
    while high - low > 1 {
        let middle = (low + high) / 2;
        if middle.pow(degree) <= n {
            low = middle;
        } else {
            high = middle;
        }
    }
    low
}

/// Single SHA-256.
pub fn sha256(message: &[u8]) -> Hash {
    let mut state: [u32; 8] = std::array::from_fn(|i| H[i]);
    let mut blocks = message.chunks_exact(64);
    for block in &mut blocks {
        compress(&mut state, block);
    }
    let mut tail = blocks.remainder().to_vec();
    tail.push(0x80);
    while tail.len() % 64 != 56 {
        tail.push(0);
    }
    tail.extend((8 * message.len() as u64).to_be_bytes());
    for block in tail.chunks_exact(64) {
        compress(&mut state, block);
    }
    let mut digest = [0; 32];
    for (bytes, word) in digest.chunks_exact_mut(4).zip(state) {
        bytes.copy_from_slice(&word.to_be_bytes());
    }
    digest
}

fn compress(state: &mut [u32; 8], block: &[u8]) {
    let mut w = [0u32; 64];
    for (word, bytes) in w.iter_mut().zip(block.chunks_exact(4)) {
        *word = u32::from_be_bytes([bytes[0], bytes[1], bytes[2], bytes[3]]);
    }
    for t in 16..64 {
        let s0 = w[t - 15].rotate_right(7) ^ w[t - 15].rotate_right(18) ^ (w[t - 15] >> 3);
        let s1 = w[t - 2].rotate_right(17) ^ w[t - 2].rotate_right(19) ^ (w[t - 2] >> 10);
        w[t] = s1.wrapping_add(w[t - 7]).wrapping_add(s0).wrapping_add(w[t - 16]);
    }
    let [mut a, mut b, mut c, mut d, mut e, mut f, mut g, mut h] = *state;
    for (word, constant) in w.iter().zip(K) {
        let s1 = e.rotate_right(6) ^ e.rotate_right(11) ^ e.rotate_right(25);
        let ch = (e & f) ^ (!e & g);
        let t1 = h.wrapping_add(s1).wrapping_add(ch).wrapping_add(constant).wrapping_add(*word);
        let s0 = a.rotate_right(2) ^ a.rotate_right(13) ^ a.rotate_right(22);
        let maj = (a & b) ^ (a & c) ^ (b & c);
        let t2 = s0.wrapping_add(maj);
        (h, g, f, e, d, c, b, a) = (g, f, e, d.wrapping_add(t1), c, b, a, t1.wrapping_add(t2));
    }
    for (word, addend) in state.iter_mut().zip([a, b, c, d, e, f, g, h]) {
        *word = word.wrapping_add(addend);
    }
}

#[cfg(test)]
mod tests {
    use super::*;
    use crate::hex::encode;

    #[test]
    fn fips_vectors() {
        assert_eq!(
            encode(&sha256(b"")),
            "e3b0c44298fc1c149afbf4c8996fb92427ae41e4649b934ca495991b7852b855"
        );
        assert_eq!(
            encode(&sha256(b"abc")),
            "ba7816bf8f01cfea414140de5dae2223b00361a396177a9cb410ff61f20015ad"
        );
        assert_eq!(
            encode(&sha256(b"abcdbcdecdefdefgefghfghighijhijkijkljklmklmnlmnomnopnopq")),
            "248d6a61d20638b8e5c026930c3e6039a33ce45964ff2167f6ecedd419db06c1"
        );
        assert_eq!(
            encode(&sha256(&[b'a'; 1_000_000])),
            "cdc76e5c9914fb9281a1c7e284d73e67f1809a48a497200e046d39ccc7112cd0"
        );
    }
}
