//! To and from TSC proofs.

use crate::ffi::{self, Blame};
use crate::refusal::{answer, Refusal};
use crate::Hash;

/// Room in bytes that is enough for any BUMP made of a TSC proof.
///
/// So many are needed for 64 nodes that are hashes, at the last position: five for the block height
/// and one for the tree height, 42 for the client's leaf, and for each level one for its count, 33
/// for the sibling's flags and hash, and nine, five, three or one for its offset, at 32, 16, 9 and 7
/// levels.
pub const TSC_TO_BUMP_ROOM: usize = 2_626;

/// Room in bytes that is enough for any TSC proof made of a BUMP.
///
/// So many are needed for 64 nodes that are hashes: one for the flags, nine for the index, 64 for id
/// and root, one for the node count, and 33 for each node.
pub const BUMP_TO_TSC_ROOM: usize = 2_187;

/// Turns a TSC proof into a BUMP in lent room, and gives the number of bytes written.
///
/// It is [`tsc_to_bump`] but for the room: refused with 22, which comes last, if the bytes needed
/// are more than `out` has ([`TSC_TO_BUMP_ROOM`] are always enough). What lies past the bytes written
/// stays as it was, and all of `out` on a refusal.
///
/// ```
/// use barrowtide::{tsc_to_bump_into, Reason};
/// // An id at position 1, with a block hash as target, and one node.
/// let proof = [&[0x00, 0x01][..], &[0xaa; 32], &[0xcc; 32], &[0x01, 0x00], &[0xbb; 32]].concat();
/// let mut out = [0x77; 80];
/// let refusal = tsc_to_bump_into(&proof, 7, &mut out[..70]).unwrap_err();
/// assert_eq!((refusal.reason, out[0]), (Reason::NoRoom, 0x77));
///
/// assert_eq!(tsc_to_bump_into(&proof, 7, &mut out)?, 71);
/// assert_eq!((&out[..5], &out[71..]), (&[7, 1, 2, 0, 0][..], &[0x77; 9][..]));
/// # Ok::<(), barrowtide::Refusal>(())
/// ```
pub fn tsc_to_bump_into(data: &[u8], block_height: u32, out: &mut [u8]) -> Result<usize, Refusal> {
    let (mut blame, mut written) = (Blame::default(), 0);
    let number = ffi::tsc_to_bump(data, block_height, out, &mut blame, &mut written);
    answer(number, blame, written as usize)
}

/// The BUMP with one client leaf that proves what a TSC proof proves.
///
/// The proof may hold the id or the whole transaction, and any target. The BUMP has the block height
/// given and as many levels as the proof has nodes: at level 0 the id as a client leaf and its
/// sibling, offsets rising, at each other level the sibling. A node that is a copy stays a copy.
///
/// Refused: as [`prove_tsc`](crate::prove_tsc), 15 and 16 included; then 4, at the place of the node
/// count, if the proof has no nodes, as a BUMP has one level at least.
///
/// ```
/// use barrowtide::{join, prove_bump, tsc_to_bump, Hash, Reason};
/// let bytes = [[0xaa; 32], [0xbb; 32]];
/// let [id, sibling] = bytes.map(Hash::from_stored);
/// let root = join(&sibling, &id);
/// let proof =
///     [&[0x04, 0x01][..], &bytes[0], root.stored(), &[0x01, 0x00], &bytes[1]].concat();
///
/// let bump = tsc_to_bump(&proof, 814_435)?;
/// assert_eq!(prove_bump(&bump, &id)?.root, root);
///
/// // An id that is alone in its block has no BUMP: the node count at place 66 is to blame.
/// let alone = [&[0x04, 0x00][..], &bytes[0], &bytes[0], &[0x00]].concat();
/// let refusal = tsc_to_bump(&alone, 814_435).unwrap_err();
/// assert_eq!((refusal.reason, refusal.carried), (Reason::BadHeight, 66));
/// # Ok::<(), barrowtide::Refusal>(())
/// ```
pub fn tsc_to_bump(data: &[u8], block_height: u32) -> Result<Vec<u8>, Refusal> {
    let mut out = [0; TSC_TO_BUMP_ROOM];
    let written = tsc_to_bump_into(data, block_height, &mut out)?;
    Ok(out[..written].to_vec())
}

/// Turns an id's climb in a BUMP into a TSC proof in lent room, and gives the number of bytes
/// written.
///
/// It is [`bump_to_tsc`] but for the room: refused with 22, which comes last, if the bytes needed
/// are more than `out` has ([`BUMP_TO_TSC_ROOM`] are always enough). What lies past the bytes written
/// stays as it was, and all of `out` on a refusal.
///
/// ```
/// use barrowtide::{bump_to_tsc_into, Hash, Reason};
/// let id = Hash::from_stored([0xaa; 32]);
/// let bump = [&[0x07, 0x01, 0x02, 0x00, 0x02][..], &[0xaa; 32], &[0x01, 0x01]].concat();
/// let mut out = [0x77; 80];
/// let refusal = bump_to_tsc_into(&bump, &id, &mut out[..67]).unwrap_err();
/// assert_eq!((refusal.reason, out[0]), (Reason::NoRoom, 0x77));
///
/// // Flags, index, id, root, and a node that is a copy.
/// assert_eq!(bump_to_tsc_into(&bump, &id, &mut out)?, 68);
/// assert_eq!((&out[..3], &out[66..69]), (&[0x04, 0x00, 0xaa][..], &[0x01, 0x01, 0x77][..]));
/// # Ok::<(), barrowtide::Refusal>(())
/// ```
pub fn bump_to_tsc_into(data: &[u8], id: &Hash, out: &mut [u8]) -> Result<usize, Refusal> {
    let (mut blame, mut written) = (Blame::default(), 0);
    let number = ffi::bump_to_tsc(data, id.stored(), out, &mut blame, &mut written);
    answer(number, blame, written as usize)
}

/// The TSC proof, with id and root, of an id's climb in a BUMP.
///
/// Its index is where the climb starts, at the least offset that carries the id, and its nodes are
/// the climb's siblings: a copy stays a copy, any other sibling becomes a hash, whether it is
/// written or worked out. Other clients and surplus leaves are left out. [`tsc_to_bump`] turns it
/// into a BUMP with the same root, position and layers. A TSC proof with id and root that became a
/// BUMP comes back byte for byte.
///
/// Refused as [`prove_bump`](crate::prove_bump).
///
/// ```
/// use barrowtide::{bump_to_tsc, join, prove_tsc, tsc_to_bump, Hash};
/// // Four clients and nothing above them: the sibling at level 1 is worked out.
/// let ids = [0xa0, 0xa1, 0xa2, 0xa3].map(|byte| Hash::from_stored([byte; 32]));
/// let leaf = |at: usize| [&[at as u8, 0x02][..], ids[at].stored()].concat();
/// let merged = [vec![0x00, 0x02, 0x04], leaf(0), leaf(1), leaf(2), leaf(3), vec![0x00]].concat();
///
/// let proof = bump_to_tsc(&merged, &ids[2])?;
/// let (left, right) = (join(&ids[0], &ids[1]), join(&ids[2], &ids[3]));
/// let nodes = [&[0x02, 0x00][..], ids[3].stored(), &[0x00], left.stored()].concat();
/// let root = join(&left, &right);
/// assert_eq!(proof, [&[0x04, 0x02][..], ids[2].stored(), root.stored(), &nodes].concat());
/// assert_eq!(prove_tsc(&proof)?.position, 2);
///
/// let single = tsc_to_bump(&proof, 0)?;
/// assert_eq!(bump_to_tsc(&single, &ids[2]), Ok(proof));
/// # Ok::<(), barrowtide::Refusal>(())
/// ```
pub fn bump_to_tsc(data: &[u8], id: &Hash) -> Result<Vec<u8>, Refusal> {
    let mut out = [0; BUMP_TO_TSC_ROOM];
    let written = bump_to_tsc_into(data, id, &mut out)?;
    Ok(out[..written].to_vec())
}
