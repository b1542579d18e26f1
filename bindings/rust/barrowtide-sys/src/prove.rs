//! Proving ids and checking clients.

use crate::{Blame, Stored};

extern "C" {
    fn barrowtide_prove_bump(
        data: *const u8,
        len: usize,
        id: *const u8,
        blame: *mut Blame,
        position: *mut u64,
        layers: *mut u64,
        root: *mut u8,
    ) -> u32;
    fn barrowtide_prove_cmp(
        data: *const u8,
        len: usize,
        id: *const u8,
        blame: *mut Blame,
        position: *mut u64,
        layers: *mut u64,
        root: *mut u8,
    ) -> u32;
    fn barrowtide_prove_tsc(
        data: *const u8,
        len: usize,
        blame: *mut Blame,
        id: *mut u8,
        position: *mut u64,
        layers: *mut u64,
        root: *mut u8,
    ) -> u32;
    fn barrowtide_check_clients(
        data: *const u8,
        len: usize,
        blame: *mut Blame,
        root: *mut u8,
    ) -> u32;
}

/// `barrowtide_prove_bump`: a lent id by a BUMP.
pub fn prove_bump(
    data: &[u8],
    id: &Stored,
    blame: &mut Blame,
    position: &mut u64,
    layers: &mut u64,
    root: &mut Stored,
) -> u32 {
    let (id, root) = (id.as_ptr(), root.as_mut_ptr());
    // SAFETY: the call reads `data` within its length and the id's 32 bytes, and writes a blame,
    // two u64 and 32 bytes, all of which are borrowed for the call.
    unsafe { barrowtide_prove_bump(data.as_ptr(), data.len(), id, blame, position, layers, root) }
}

/// `barrowtide_prove_cmp`: a lent id by a compound path.
pub fn prove_cmp(
    data: &[u8],
    id: &Stored,
    blame: &mut Blame,
    position: &mut u64,
    layers: &mut u64,
    root: &mut Stored,
) -> u32 {
    let (id, root) = (id.as_ptr(), root.as_mut_ptr());
    // SAFETY: the call reads `data` within its length and the id's 32 bytes, and writes a blame,
    // two u64 and 32 bytes, all of which are borrowed for the call.
    unsafe { barrowtide_prove_cmp(data.as_ptr(), data.len(), id, blame, position, layers, root) }
}

/// `barrowtide_prove_tsc`: a TSC proof's own id by it.
pub fn prove_tsc(
    data: &[u8],
    blame: &mut Blame,
    id: &mut Stored,
    position: &mut u64,
    layers: &mut u64,
    root: &mut Stored,
) -> u32 {
    let (id, root) = (id.as_mut_ptr(), root.as_mut_ptr());
    // SAFETY: the call reads `data` within its length and writes a blame, two u64 and twice 32
    // bytes, all of which are borrowed for the call.
    unsafe { barrowtide_prove_tsc(data.as_ptr(), data.len(), blame, id, position, layers, root) }
}

/// `barrowtide_check_clients`: all client leaves of a BUMP.
pub fn check_clients(data: &[u8], blame: &mut Blame, root: &mut Stored) -> u32 {
    // SAFETY: the call reads `data` within its length and writes a blame and 32 bytes, all of
    // which are borrowed for the call.
    unsafe { barrowtide_check_clients(data.as_ptr(), data.len(), blame, root.as_mut_ptr()) }
}
