//! Writing BUMPs.

use crate::ffi::{self, Blame};
use crate::refusal::{answer, Refusal};
use crate::Hash;

/// The greatest number of ids in the list that a BUMP is written of.
pub const MAX_IDS: usize = 1_024;

/// Room in bytes that is enough for any BUMP written.
pub const WRITE_ROOM: usize = 36_864;

/// Writes the BUMP that proves the ids at the chosen positions of a block into lent room, and gives
/// the number of bytes written.
///
/// It is [`write_bump`] but for the room: refused with 22 if the bytes needed are more than `out`
/// has ([`WRITE_ROOM`] are always enough). What lies past the bytes written stays as it was, and all
/// of `out` on a refusal.
///
/// ```
/// use barrowtide::{write_bump_into, Reason};
/// let ids = [[0xaa; 32], [0xbb; 32]].concat();
/// let mut out = [0x77; 80];
/// let refusal = write_bump_into(7, &ids, &[0], &mut out[..70]).unwrap_err();
/// assert_eq!((refusal.reason, out[0]), (Reason::NoRoom, 0x77));
///
/// assert_eq!(write_bump_into(7, &ids, &[0], &mut out)?, 71);
/// assert_eq!((&out[..5], &out[71..]), (&[7, 1, 2, 0, 2][..], &[0x77; 9][..]));
/// # Ok::<(), barrowtide::Refusal>(())
/// ```
pub fn write_bump_into(
    block_height: u64,
    ids: &[u8],
    positions: &[u64],
    out: &mut [u8],
) -> Result<usize, Refusal> {
    let (mut blame, mut written) = (Blame::default(), 0);
    let number = ffi::write_bump(block_height, ids, positions, out, &mut blame, &mut written);
    answer(number, blame, written as usize).map_err(Refusal::of_caller)
}

/// The BUMP that proves the ids at the chosen positions of a block.
///
/// The block's ids, 2 to [`MAX_IDS`] of them, stand end to end in their order. Positions count from
/// 0, in any order; one that is named twice counts once. The BUMP has the chosen ids as client
/// leaves and every sibling that their climbs need, and nothing more; above level 0 a sibling is left
/// out if a chosen position lies under it, as it can be worked out.
///
/// Refused, in this order and carrying 0: 5 for a block height over 32 bits, for too few or too many
/// ids or a part of one, 13 for no position, 6 for one outside the list, 19 for equal ids, 15 if a
/// climb meets a twin, with the sibling at the lowest such layer of the least position whose climb
/// does.
///
/// ```
/// use barrowtide::{join, prove_bump, write_bump, Hash, Reason};
/// let ids = [[0xaa; 32], [0xbb; 32], [0xcc; 32]].map(Hash::from_stored);
/// let bump = write_bump(814_435, &ids, &[2])?;
///
/// let proof = prove_bump(&bump, &ids[2])?;
/// assert_eq!((proof.position, proof.layers), (2, 2));
/// assert_eq!(proof.root, join(&join(&ids[0], &ids[1]), &join(&ids[2], &ids[2])));
///
/// let refusal = write_bump(814_435, &ids, &[3]).unwrap_err();
/// assert_eq!(refusal.reason, Reason::BadOffset);
/// # Ok::<(), barrowtide::Refusal>(())
/// ```
pub fn write_bump(block_height: u64, ids: &[Hash], positions: &[u64]) -> Result<Vec<u8>, Refusal> {
    let mut out = vec![0; WRITE_ROOM];
    let written = write_bump_into(block_height, &Hash::end_to_end(ids), positions, &mut out)?;
    Ok(out[..written].to_vec())
}
