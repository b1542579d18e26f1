//! The version.

extern "C" {
    fn barrowtide_version() -> u32;
}

/// `BARROWTIDE_VERSION_NUMBER`: the version of this crate, and of the archive that it is for.
pub const VERSION: u32 = number(env!("CARGO_PKG_VERSION_MAJOR")) << 16
    | number(env!("CARGO_PKG_VERSION_MINOR")) << 8
    | number(env!("CARGO_PKG_VERSION_PATCH"));

const fn number(digits: &str) -> u32 {
    match u32::from_str_radix(digits, 10) {
        Ok(number) => number,
        Err(_) => panic!("a version is made of numbers"),
    }
}

/// `barrowtide_version`: the version of the archive, major * 65,536 + minor * 256 + patch.
pub fn version() -> u32 {
    // SAFETY: the call takes nothing and returns a number.
    unsafe { barrowtide_version() }
}

/// Asks that the archive is of the crate's version.
///
/// # Panics
///
/// If it is not.
pub(crate) fn expect_same() {
    let words = |number: u32| format!("{}.{}.{}", number >> 16, number >> 8 & 0xff, number & 0xff);
    let linked = version();
    assert!(
        linked == VERSION,
        "libbarrowtide.a is version {}, this crate is {}",
        words(linked),
        words(VERSION)
    );
}
