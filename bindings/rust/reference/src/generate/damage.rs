//! Damage to bytes: at every field in turn, or at random.

use std::ops::Range;

use super::draft::{varint, wide_varint, Draft, Kind};
use super::random::Random;

/// Every proper prefix.
pub fn truncations(bytes: &[u8]) -> impl Iterator<Item = &[u8]> {
    (0..bytes.len()).map(|length| &bytes[..length])
}

/// Every change of one field: a VarInt to numbers at the edges and to longer forms, a byte to each
/// other value, other bytes by a bit, and any field left out or written twice.
pub fn field_edits(draft: &Draft) -> impl Iterator<Item = Vec<u8>> + '_ {
    draft.fields.iter().flat_map(|(range, kind)| {
        let field = &draft.bytes[range.clone()];
        let mut others = match kind {
            Kind::VarInt(value) => other_varints(*value),
            Kind::Byte => (0..=255).map(|byte| vec![byte]).collect(),
            Kind::Raw => other_bits(field),
        };
        others.extend([Vec::new(), [field, field].concat()]);
        others.into_iter().map(|other| replaced(&draft.bytes, range, &other))
    })
}

/// Numbers at the edges of the VarInt's widths, of 01's limits and of the value itself; then longer
/// forms of it.
fn other_varints(value: u64) -> Vec<Vec<u8>> {
    let edges = [0, 32, 64, 252, 256, 1_024, 0xffff, 0xffff_ffff, u64::MAX, value];
    let near = edges.into_iter().flat_map(|n| [n.wrapping_sub(1), n, n.wrapping_add(1)]);
    let long = [2, 4, 8].map(|width| wide_varint(value, width));
    near.map(varint).chain(long).collect()
}

/// The field with its first or its last bit changed.
fn other_bits(field: &[u8]) -> Vec<Vec<u8>> {
    let (mut first, mut last) = (field.to_vec(), field.to_vec());
    if let (Some(a), Some(b)) = (first.first_mut(), last.last_mut()) {
        *a ^= 0x01;
        *b ^= 0x80;
    }
    vec![first, last]
}

/// One to three changes at random.
pub fn random_edit(random: &mut Random, draft: &Draft) -> Vec<u8> {
    let mut bytes = if random.one_in(4) || draft.fields.is_empty() {
        draft.bytes.clone()
    } else {
        random_field_edit(random, draft)
    };
    for _ in 0..random.within(0..=2) {
        random_byte_edit(random, &mut bytes);
    }
    bytes
}

fn random_field_edit(random: &mut Random, draft: &Draft) -> Vec<u8> {
    let (range, kind) = random_field(random, draft);
    let field = &draft.bytes[range.clone()];
    let (other_range, _) = random_field(random, draft);
    let other = match (random.within(0..=9), kind) {
        (0, _) => Vec::new(),
        (1, _) => [field, field].concat(),
        (2, _) => draft.bytes[other_range].to_vec(),
        (3, Kind::VarInt(value)) => wide_varint(value, random.pick(&[2, 4, 8])),
        (4..=6, Kind::VarInt(value)) => varint(value.wrapping_add(random.pick(&[1, 2, u64::MAX]))),
        (_, Kind::VarInt(_)) => varint(random.number()),
        (_, Kind::Byte) => vec![random.bits() as u8 % 4],
        (_, Kind::Raw) => {
            // Often another field of the same size: twins, repeated ids, parents that are other
            // hashes.
            let alike = |other: &&(Range<usize>, Kind)| other.0.len() == range.len();
            let others: Vec<_> = draft.fields.iter().filter(alike).collect();
            draft.bytes[random.pick(&others).0.clone()].to_vec()
        }
    };
    replaced(&draft.bytes, &range, &other)
}

fn random_field(random: &mut Random, draft: &Draft) -> (Range<usize>, Kind) {
    draft.fields[random.index(draft.fields.len())].clone()
}

fn random_byte_edit(random: &mut Random, bytes: &mut Vec<u8>) {
    let at = random.index(bytes.len().max(1));
    match (random.within(0..=6), bytes.get_mut(at)) {
        (0, _) => bytes.truncate(at),
        (1, _) => bytes.extend(random.bytes(1 + at % 3)),
        (2, Some(_)) => drop(bytes.remove(at)),
        (3, Some(_)) => bytes.insert(at, random.bits() as u8),
        (4, Some(byte)) => *byte = random.bits() as u8,
        (5, Some(byte)) => *byte = random.pick(&[0, 1, 2, 0xfd, 0xfe, 0xff]),
        (_, Some(byte)) => *byte ^= 1 << random.within(0..=7),
        (_, None) => {}
    }
}

fn replaced(bytes: &[u8], range: &Range<usize>, other: &[u8]) -> Vec<u8> {
    [&bytes[..range.start], other, &bytes[range.end..]].concat()
}

/// Every string of up to `length` bytes out of an alphabet.
pub fn all_strings(alphabet: &[u8], length: usize) -> impl Iterator<Item = Vec<u8>> + '_ {
    (0..=length).flat_map(move |length| {
        let count = alphabet.len().pow(length as u32);
        (0..count).map(move |mut number| {
            let mut string = vec![0; length];
            for byte in &mut string {
                *byte = alphabet[number % alphabet.len()];
                number /= alphabet.len();
            }
            string
        })
    })
}
