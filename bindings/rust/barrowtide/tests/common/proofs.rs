//! Proofs by paths: the library against the reference.

use barrowtide::ffi;
use reference::climb::Climb;
use reference::hex::show;
use reference::prove;
use reference::refusal::Refusal;
use reference::Hash;

use crate::common::{expected, plain, FILL, GUARDED};

/// A proof with its hashes in stored order, as the reference has them.
#[derive(Debug, Clone, Copy, PartialEq, Eq)]
pub struct Proof {
    /// The id.
    pub id: Hash,
    /// Its position.
    pub position: u64,
    /// The number of layers.
    pub layers: u64,
    /// The root.
    pub root: Hash,
}

/// A wrapper's proof so.
pub fn stored(proof: barrowtide::Proof) -> Proof {
    let barrowtide::Proof { id, position, layers, root } = proof;
    Proof { id: *id.stored(), position, layers, root: *root.stored() }
}

/// What a call that proves an id answers.
pub type Answer = Result<Proof, Refusal>;

/// A climb as the library tells it.
pub fn proof(climb: Climb) -> Proof {
    let layers = climb.layers.len() as u64;
    Proof { id: climb.id, position: climb.position, layers, root: climb.root() }
}

/// Lent memory of a proof before the call; a lent id is not memory that the call writes.
pub fn fill(id: Hash) -> Proof {
    Proof { id, position: FILL, layers: FILL, root: [0xa5; 32] }
}

/// Compares what the two say of an id by a BUMP.
pub fn check_bump(data: &[u8], id: &Hash) -> Answer {
    let told = prove::by_bump(data, id).map(proof);
    let (mut guarded, mut lent) = (GUARDED, fill(*id));
    let Proof { position, layers, root, .. } = &mut lent;
    let number = ffi::prove_bump(data, id, &mut guarded.blame, position, layers, root);
    assert_eq!((number, guarded, lent), expected(told, fill(*id)), "{}", show(data));
    let safe = barrowtide::prove_bump(data, &barrowtide::Hash::from_stored(*id));
    assert_eq!(safe.map(stored).map_err(plain), told, "{}", show(data));
    told
}

/// Compares what they say of an id by a CMP.
pub fn check_cmp(data: &[u8], id: &Hash) -> Answer {
    let told = prove::by_cmp(data, id).map(proof);
    let (mut guarded, mut lent) = (GUARDED, fill(*id));
    let Proof { position, layers, root, .. } = &mut lent;
    let number = ffi::prove_cmp(data, id, &mut guarded.blame, position, layers, root);
    assert_eq!((number, guarded, lent), expected(told, fill(*id)), "{}", show(data));
    let safe = barrowtide::prove_cmp(data, &barrowtide::Hash::from_stored(*id));
    assert_eq!(safe.map(stored).map_err(plain), told, "{}", show(data));
    told
}

/// Compares what they say of all clients of a BUMP.
pub fn check_clients(data: &[u8]) -> Result<Hash, Refusal> {
    let told = prove::all_clients(data);
    let (mut guarded, mut root) = (GUARDED, [0xa5; 32]);
    let number = ffi::check_clients(data, &mut guarded.blame, &mut root);
    assert_eq!((number, guarded, root), expected(told, [0xa5; 32]), "{}", show(data));
    let safe = barrowtide::check_clients(data).map(|root| *root.stored());
    assert_eq!(safe.map_err(plain), told, "{}", show(data));
    told
}

/// The number of a refusal that carries 0, or 0 for acceptance.
pub fn number<T>(answer: Result<T, Refusal>) -> u32 {
    answer.map_or_else(
        |refusal| {
            assert_eq!(refusal.carried, 0);
            refusal.number
        },
        |_| 0,
    )
}
