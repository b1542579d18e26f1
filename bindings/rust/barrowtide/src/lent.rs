//! Lent tables and rows as the C interface has them, with bytes in place of hashes. All the unsafe code
//! of the crate is here.
#![allow(unsafe_code)]

use std::mem::offset_of;
use std::slice;

use crate::{ffi, Answer, Record};

/// Fails to compile unless two structures have one size and alignment, and these fields at the same
/// places.
macro_rules! same_layout {
    ($named:ty, $lent:ty, $($field:ident),+) => {
        const _: () = assert!(size_of::<$named>() == size_of::<$lent>());
        const _: () = assert!(align_of::<$named>() == align_of::<$lent>());
        $(const _: () = assert!(offset_of!($named, $field) == offset_of!($lent, $field));)+
    };
}

same_layout!(Record, ffi::Record, start, length, id, bump, anchored, position, outputs, total);
same_layout!(Answer, ffi::Answer, refusal, carried, layer, sibling, position, layers, root);

/// A table to lend.
pub fn records(table: &mut [Record]) -> &mut [ffi::Record] {
    // SAFETY: the layouts are the same, neither has padding, and of both any bytes are a value.
    unsafe { slice::from_raw_parts_mut(table.as_mut_ptr().cast(), table.len()) }
}

/// A row to lend.
pub fn answers(row: &mut [Answer]) -> &mut [ffi::Answer] {
    // SAFETY: as with `records`.
    unsafe { slice::from_raw_parts_mut(row.as_mut_ptr().cast(), row.len()) }
}
