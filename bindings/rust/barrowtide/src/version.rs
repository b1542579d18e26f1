//! The version of the library.

use std::fmt;

use crate::ffi;

/// A version. Before 1.0.0 two of them fit each other only if they are equal.
#[derive(Debug, Clone, Copy, PartialEq, Eq, PartialOrd, Ord, Hash)]
pub struct Version {
    /// The first number.
    pub major: u32,
    /// The second.
    pub minor: u32,
    /// The third.
    pub patch: u32,
}

/// The version of this crate, and of the library that it is for.
pub const VERSION: Version = from_number(ffi::VERSION);

const fn from_number(number: u32) -> Version {
    Version { major: number >> 16, minor: number >> 8 & 0xff, patch: number & 0xff }
}

impl fmt::Display for Version {
    fn fmt(&self, f: &mut fmt::Formatter<'_>) -> fmt::Result {
        write!(f, "{}.{}.{}", self.major, self.minor, self.patch)
    }
}

/// The version of the library that is linked.
///
/// The calls that lend a table or a row ask for it themselves, as one of another version might write
/// past it: they panic if it is not [`VERSION`].
///
/// ```
/// use barrowtide::{version, VERSION};
/// assert_eq!(version(), VERSION);
/// ```
pub fn version() -> Version {
    from_number(ffi::version())
}
