//! The hashes to compare with: plain C, and OpenSSL where its library is found.

use std::ffi::{c_char, c_int, c_void, CStr};
use std::mem::transmute;

use reference::Hash;

extern "C" {
    fn plain_sha256d(data: *const u8, len: usize, digest: *mut u8);
    fn dlopen(name: *const c_char, mode: c_int) -> *mut c_void;
    fn dlsym(library: *mut c_void, name: *const c_char) -> *mut c_void;
}

/// The double SHA-256 by the plain C of `plain.c`.
pub fn plain(data: &[u8]) -> Hash {
    let mut digest = [0; 32];
    // SAFETY: the call reads `data` within its length and writes 32 bytes.
    unsafe { plain_sha256d(data.as_ptr(), data.len(), digest.as_mut_ptr()) };
    digest
}

/// OpenSSL's one-shot SHA-256: it reads the bytes and writes 32.
type OneShot = unsafe extern "C" fn(*const u8, usize, *mut u8) -> *mut u8;

/// OpenSSL.
#[derive(Clone, Copy)]
pub struct OpenSsl(OneShot);

impl OpenSsl {
    /// Finds the library, if there is one.
    pub fn find() -> Option<Self> {
        const NOW: c_int = 2;
        let names = [c"libcrypto.so.3", c"libcrypto.so.1.1", c"libcrypto.so"];
        let open = |name: &CStr| {
            // SAFETY: the name ends in 0; loading OpenSSL runs its own start-up code only.
            let library = unsafe { dlopen(name.as_ptr(), NOW) };
            (!library.is_null()).then_some(library)
        };
        let library = names.into_iter().find_map(open)?;
        // SAFETY: the library is open and the name ends in 0.
        let symbol = unsafe { dlsym(library, c"SHA256".as_ptr()) };
        if symbol.is_null() {
            return None;
        }
        // SAFETY: `SHA256` has this type in every version of OpenSSL.
        Some(Self(unsafe { transmute::<*mut c_void, OneShot>(symbol) }))
    }

    /// The double SHA-256.
    pub fn sha256d(self, data: &[u8]) -> Hash {
        let (mut inner, mut digest) = ([0; 32], [0; 32]);
        // SAFETY: each call reads bytes within their length and writes 32.
        unsafe {
            self.0(data.as_ptr(), data.len(), inner.as_mut_ptr());
            self.0(inner.as_ptr(), 32, digest.as_mut_ptr());
        }
        digest
    }
}
