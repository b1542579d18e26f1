//! Proving that an id is in a block.

use crate::ffi::{self, Blame, Stored};
use crate::refusal::{answer, Refusal};
use crate::Hash;

/// A proof that was accepted. It is worth as much as its root is trusted.
///
/// Nothing in a proof shows that its id is a transaction's: an inner node of the tree has a proof with
/// fewer layers. [`read_transaction`](crate::read_transaction) says which id a payment has. As it
/// refuses one of 64 bytes, the size of two nodes, no inner node can pose as a payment that was read,
/// unless double SHA-256 is broken; [`compare_depths`](crate::compare_depths) would show how.
#[derive(Debug, Clone, Copy, PartialEq, Eq)]
pub struct Proof {
    /// The id that is proved.
    pub id: Hash,
    /// Its position in the block.
    pub position: u64,
    /// The number of layers between it and the root.
    pub layers: u64,
    /// The Merkle root.
    pub root: Hash,
}

/// Proves an id by a BUMP.
///
/// A sibling above level 0 that is not written is worked out: it is the join of its two children,
/// each written or worked out in turn. A copy as sibling repeats the working hash; below a sibling
/// it has the value of the node on its left. What this can [cost](crate#cost) is bounded.
///
/// ```
/// use barrowtide::{join, prove_bump, Hash, Reason};
/// let bytes = [[0xaa; 32], [0xbb; 32]];
/// let bump = [&[0x00, 0x01, 0x02, 0x00, 0x02][..], &bytes[0], &[0x01, 0x00], &bytes[1]].concat();
/// let [id, sibling] = bytes.map(Hash::from_stored);
///
/// let proof = prove_bump(&bump, &id)?;
/// assert_eq!((proof.position, proof.layers, proof.root), (0, 1, join(&id, &sibling)));
/// assert_eq!(prove_bump(&bump, &Hash::default()).unwrap_err().reason, Reason::NotListed);
///
/// // Four leaves and nothing above them: the sibling at level 1 is the join of the other two.
/// let ids = [0xa0, 0xa1, 0xa2, 0xa3].map(|byte| Hash::from_stored([byte; 32]));
/// let leaf = |at: usize| [&[at as u8, 0x02][..], ids[at].stored()].concat();
/// let merged = [vec![0x00, 0x02, 0x04], leaf(0), leaf(1), leaf(2), leaf(3), vec![0x00]].concat();
/// let root = join(&join(&ids[0], &ids[1]), &join(&ids[2], &ids[3]));
/// assert_eq!(prove_bump(&merged, &ids[2])?.root, root);
/// # Ok::<(), barrowtide::Refusal>(())
/// ```
pub fn prove_bump(data: &[u8], id: &Hash) -> Result<Proof, Refusal> {
    prove_path(ffi::prove_bump, data, id)
}

/// Proves an id by a compound path, with siblings worked out as by a BUMP.
///
/// ```
/// use barrowtide::{join, prove_cmp, Hash};
/// let bytes = [[0xaa; 32], [0xbb; 32]];
/// let path = [&[0x00, 0x02, 0x00][..], &bytes[0], &[0x01], &bytes[1]].concat();
/// let [sibling, id] = bytes.map(Hash::from_stored);
///
/// let proof = prove_cmp(&path, &id)?;
/// assert_eq!((proof.position, proof.layers, proof.root), (1, 1, join(&sibling, &id)));
/// # Ok::<(), barrowtide::Refusal>(())
/// ```
pub fn prove_cmp(data: &[u8], id: &Hash) -> Result<Proof, Refusal> {
    prove_path(ffi::prove_cmp, data, id)
}

/// A call that proves a lent id.
type ProvePath = fn(&[u8], &Stored, &mut Blame, &mut u64, &mut u64, &mut Stored) -> u32;

fn prove_path(call: ProvePath, data: &[u8], id: &Hash) -> Result<Proof, Refusal> {
    let (mut blame, mut position, mut layers, mut root) = (Blame::default(), 0, 0, [0; 32]);
    let number = call(data, id.stored(), &mut blame, &mut position, &mut layers, &mut root);
    answer(number, blame, Proof { id: *id, position, layers, root: Hash::from_stored(root) })
}

/// Proves a TSC proof's own id, the one written or its transaction's.
///
/// A header or a root as target must hold the root. A block hash is compared with nothing, and a
/// header's own hash and work are not looked at.
///
/// ```
/// use barrowtide::{prove_tsc, Reason};
/// // An id that is alone in its block is the root itself; here it is given as the target, too.
/// let id = [0xaa; 32];
/// let proof = [&[0x04, 0x00][..], &id, &id, &[0x00]].concat();
/// assert_eq!(prove_tsc(&proof)?.root.stored(), &id);
///
/// let other = [&[0x04, 0x00][..], &id, &[0xbb; 32], &[0x00]].concat();
/// assert_eq!(prove_tsc(&other).unwrap_err().reason, Reason::RootsDiffer);
/// # Ok::<(), barrowtide::Refusal>(())
/// ```
pub fn prove_tsc(data: &[u8]) -> Result<Proof, Refusal> {
    let (mut blame, mut position, mut layers) = (Blame::default(), 0, 0);
    let (mut id, mut root) = ([0; 32], [0; 32]);
    let number = ffi::prove_tsc(data, &mut blame, &mut id, &mut position, &mut layers, &mut root);
    let (id, root) = (Hash::from_stored(id), Hash::from_stored(root));
    answer(number, blame, Proof { id, position, layers, root })
}

/// Climbs from every client leaf of a BUMP and gives the one root that all of them lead to.
///
/// It climbs once for each client leaf, so this is the call whose [cost](crate#cost) can grow the
/// most.
///
/// ```
/// use barrowtide::{check_clients, join, Hash};
/// let bytes = [[0xaa; 32], [0xbb; 32]];
/// let bump = [&[0x00, 0x01, 0x02, 0x00, 0x02][..], &bytes[0], &[0x01, 0x02], &bytes[1]].concat();
/// let [left, right] = bytes.map(Hash::from_stored);
/// assert_eq!(check_clients(&bump), Ok(join(&left, &right)));
/// ```
pub fn check_clients(data: &[u8]) -> Result<Hash, Refusal> {
    let (mut blame, mut root) = (Blame::default(), [0; 32]);
    let number = ffi::check_clients(data, &mut blame, &mut root);
    answer(number, blame, Hash::from_stored(root))
}
