//! What a refusal blames.

use std::mem::offset_of;

/// `barrowtide_blame`: what a refusal blames.
#[derive(Debug, Clone, Copy, Default, PartialEq, Eq)]
#[repr(C)]
pub struct Blame {
    /// A place, the number of a transaction, or 0.
    pub carried: u64,
    /// Of 14 and 15 the layer of the sibling that is missing or a twin; else 0.
    pub layer: u64,
    /// Of 14 and 15 that sibling's position in its layer; else 0.
    pub sibling: u64,
}

/// The size and the fields of `barrowtide_blame`.
const _: () = assert!(size_of::<Blame>() == 24);
const _: () = assert!(offset_of!(Blame, carried) == 0);
const _: () = assert!(offset_of!(Blame, layer) == 8);
const _: () = assert!(offset_of!(Blame, sibling) == 16);
