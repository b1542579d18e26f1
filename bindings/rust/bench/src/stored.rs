//! The crate's calls over hashes as the reference has them: 32 bytes in stored order.

use barrowtide::{Hash as Named, Refusal};
use reference::Hash;

fn named(hash: &Hash) -> Named {
    Named::from_stored(*hash)
}

/// What is compared of a proof.
#[derive(Debug, Clone, Copy, PartialEq, Eq)]
pub struct Proof {
    pub position: u64,
    pub root: Hash,
}

fn proof(proof: barrowtide::Proof) -> Proof {
    Proof { position: proof.position, root: *proof.root.stored() }
}

pub fn sha256d(data: &[u8]) -> Result<Hash, Refusal> {
    barrowtide::sha256d(data).map(|digest| *digest.stored())
}

pub fn join(left: &Hash, right: &Hash) -> Hash {
    *barrowtide::join(&named(left), &named(right)).stored()
}

pub fn prove_bump(data: &[u8], id: &Hash) -> Result<Proof, Refusal> {
    barrowtide::prove_bump(data, &named(id)).map(proof)
}

pub fn prove_cmp(data: &[u8], id: &Hash) -> Result<Proof, Refusal> {
    barrowtide::prove_cmp(data, &named(id)).map(proof)
}

pub fn check_clients(data: &[u8]) -> Result<Hash, Refusal> {
    barrowtide::check_clients(data).map(|root| *root.stored())
}

pub fn bump_to_tsc_into(data: &[u8], id: &Hash, out: &mut [u8]) -> Result<usize, Refusal> {
    barrowtide::bump_to_tsc_into(data, &named(id), out)
}

pub fn write_bump(height: u64, ids: &[Hash], positions: &[u64]) -> Result<Vec<u8>, Refusal> {
    let ids: Vec<Named> = ids.iter().map(named).collect();
    barrowtide::write_bump(height, &ids, positions)
}
