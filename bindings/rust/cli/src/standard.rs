//! Standard input and output.
//!
//! Before `main`, Rust's runtime puts `/dev/null` in the place of one that is closed, and later it
//! passes over the error of one that can't be read or written: an answer would be lost without a
//! word, and the exit status still be 0. So both are looked at before the runtime starts.
#![allow(unsafe_code, reason = "the C library is told what to call before `main`, and asked")]

use std::ffi::c_int;
use std::io::{self, Stdin, Write};
use std::sync::atomic::{AtomicBool, Ordering::Relaxed};

extern "C" {
    fn fcntl(descriptor: c_int, command: c_int, ...) -> c_int;
}

// The numbers of Linux on x86-64.
const F_GETFL: c_int = 3;
const O_ACCMODE: c_int = 3;
const O_RDONLY: c_int = 0;
const O_WRONLY: c_int = 1;
const EBADF: i32 = 9;

static READABLE: AtomicBool = AtomicBool::new(true);
static WRITABLE: AtomicBool = AtomicBool::new(true);

/// What the C library calls before `main`.
#[used]
#[link_section = ".init_array"]
static LOOK: extern "C" fn() = look;

extern "C" fn look() {
    // SAFETY: the flags of a descriptor are asked for, which touches no memory; of a closed one there
    // are none, and the answer is -1.
    let flags = |descriptor| unsafe { fcntl(descriptor, F_GETFL) };
    let (input, output) = (flags(0), flags(1));
    READABLE.store(input != -1 && input & O_ACCMODE != O_WRONLY, Relaxed);
    WRITABLE.store(output != -1 && output & O_ACCMODE != O_RDONLY, Relaxed);
}

fn usable(is: &AtomicBool) -> io::Result<()> {
    if is.load(Relaxed) {
        Ok(())
    } else {
        Err(io::Error::from_raw_os_error(EBADF))
    }
}

/// Standard input, to be read.
pub fn input() -> io::Result<Stdin> {
    usable(&READABLE).map(|()| io::stdin())
}

/// Writes to standard output; nothing can be written to any.
pub fn write(bytes: &[u8]) -> io::Result<()> {
    if bytes.is_empty() {
        return Ok(());
    }
    usable(&WRITABLE)?;
    let mut stdout = io::stdout().lock();
    stdout.write_all(bytes)?;
    stdout.flush()
}
