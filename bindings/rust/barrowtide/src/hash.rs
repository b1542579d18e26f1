//! Hashes, and double SHA-256.

use std::error::Error;
use std::fmt;
use std::str::FromStr;

use crate::ffi::{self, Blame};
use crate::hex;
use crate::refusal::{answer, Refusal};

/// An id, a node or a root.
///
/// As text it is in printed order, as block explorers show it: 64 hex digits, the reverse of the
/// stored order that proofs and transactions hold. Stored bytes come in and go out only by name.
///
/// ```
/// use barrowtide::Hash;
/// let mut stored = [0; 32];
/// stored[31] = 0xab;
/// let hash = Hash::from_stored(stored);
/// assert!(hash.to_string().starts_with("ab00"));
/// assert_eq!(format!("{hash:?}"), hash.to_string());
/// assert_eq!(hash.to_string().parse(), Ok(hash));
/// assert_eq!(hash.stored(), &stored);
/// assert!("ab".parse::<Hash>().is_err());
/// ```
#[derive(Clone, Copy, Default, PartialEq, Eq, PartialOrd, Ord, Hash)]
#[repr(transparent)]
pub struct Hash {
    stored: [u8; 32],
}

impl Hash {
    /// The hash of 32 bytes in stored order.
    pub const fn from_stored(stored: [u8; 32]) -> Self {
        Self { stored }
    }

    /// Its bytes in stored order.
    pub const fn stored(&self) -> &[u8; 32] {
        &self.stored
    }

    /// The bytes of several, end to end in stored order, as calls over lent bytes take them.
    ///
    /// ```
    /// use barrowtide::Hash;
    /// let hashes = [Hash::from_stored([1; 32]), Hash::from_stored([2; 32])];
    /// assert_eq!(Hash::end_to_end(&hashes), [[1; 32], [2; 32]].concat());
    /// ```
    pub fn end_to_end(hashes: &[Self]) -> Vec<u8> {
        hashes.iter().flat_map(|hash| hash.stored).collect()
    }
}

/// In printed order, lower case.
impl fmt::Display for Hash {
    fn fmt(&self, f: &mut fmt::Formatter<'_>) -> fmt::Result {
        self.stored.iter().rev().try_for_each(|byte| write!(f, "{byte:02x}"))
    }
}

/// As [`Display`](fmt::Display).
impl fmt::Debug for Hash {
    fn fmt(&self, f: &mut fmt::Formatter<'_>) -> fmt::Result {
        fmt::Display::fmt(self, f)
    }
}

/// A text that is not 64 hex digits.
#[derive(Debug, Clone, Copy, PartialEq, Eq)]
pub struct ParseHashError;

impl fmt::Display for ParseHashError {
    fn fmt(&self, f: &mut fmt::Formatter<'_>) -> fmt::Result {
        f.write_str("not 64 hex digits")
    }
}

impl Error for ParseHashError {}

/// From printed order; digits of either case.
impl FromStr for Hash {
    type Err = ParseHashError;

    fn from_str(text: &str) -> Result<Self, ParseHashError> {
        let digits = text.len() == 64 && text.bytes().all(|byte| byte.is_ascii_hexdigit());
        let bytes = if digits { hex::decode(text) } else { None };
        let mut stored: [u8; 32] = bytes.and_then(|b| b.try_into().ok()).ok_or(ParseHashError)?;
        stored.reverse();
        Ok(Self { stored })
    }
}

/// The greatest size of an input, in bytes.
pub const MAX_INPUT: usize = 16_777_216;

/// The double SHA-256 of some bytes; refused with 1 over [`MAX_INPUT`].
///
/// ```
/// let digest = barrowtide::sha256d(b"")?;
/// assert_eq!(digest.stored()[..4], [0x5d, 0xf6, 0xe0, 0xe2]);
/// # Ok::<(), barrowtide::Refusal>(())
/// ```
pub fn sha256d(data: &[u8]) -> Result<Hash, Refusal> {
    let mut blame = Blame::default();
    let mut digest = [0; 32];
    let number = ffi::sha256d(data, &mut blame, &mut digest);
    answer(number, blame, Hash::from_stored(digest))
}

/// The parent of two nodes: the double SHA-256 of the left one's bytes, then the right one's.
///
/// ```
/// use barrowtide::{join, sha256d, Hash};
/// let nodes = [Hash::from_stored([1; 32]), Hash::from_stored([2; 32])];
/// assert_eq!(Ok(join(&nodes[0], &nodes[1])), sha256d(&Hash::end_to_end(&nodes)));
/// ```
pub fn join(left: &Hash, right: &Hash) -> Hash {
    let mut parent = [0; 32];
    ffi::join(&left.stored, &right.stored, &mut parent);
    Hash::from_stored(parent)
}
