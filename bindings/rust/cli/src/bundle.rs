//! A bundle taken apart, for showing it. The library reads the whole first and each part once more;
//! what it says of them must agree with what is shown.

use std::collections::HashMap;
use std::ops::Range;

use barrowtide::{Beef, Bump, Hash, Proof, Refusal};

use crate::cursor::Cursor;
use crate::leaves::Levels;

/// What an input spends.
pub struct Input {
    pub parent: Hash,
    pub output: u32,
}

/// A transaction.
pub struct Transaction {
    pub id: Hash,
    pub inputs: Vec<Input>,
    /// The amount of each output.
    pub outputs: Vec<u64>,
}

impl Transaction {
    /// The transaction at the cursor, which the library reads from these bytes.
    fn next(data: &[u8], cursor: &mut Cursor) -> Option<(Self, Range<usize>)> {
        let start = cursor.place();
        cursor.bytes(4)?;
        let count = cursor.number()?;
        let input = |cursor: &mut Cursor| {
            let (parent, output) = (cursor.hash()?, u32::from_le_bytes(cursor.array()?));
            let script = cursor.number()?;
            cursor.bytes(script)?;
            cursor.bytes(4)?;
            Some(Input { parent, output })
        };
        let inputs: Vec<Input> = (0..count).map(|_| input(cursor)).collect::<Option<_>>()?;
        let count = cursor.number()?;
        let output = |cursor: &mut Cursor| {
            let amount = u64::from_le_bytes(cursor.array()?);
            let script = cursor.number()?;
            cursor.bytes(script)?;
            Some(amount)
        };
        let outputs: Vec<u64> = (0..count).map(|_| output(cursor)).collect::<Option<_>>()?;
        cursor.bytes(4)?;
        let at = start..cursor.place();
        let told = barrowtide::read_transaction(&data[at.clone()]).ok()?;
        let counts = (inputs.len() as u64, outputs.len() as u64);
        let same = counts == (told.inputs, told.outputs);
        same.then_some((Self { id: told.id, inputs, outputs }, at))
    }

    /// A transaction that the library has read.
    pub fn of(data: &[u8]) -> Option<Self> {
        let mut cursor = Cursor::new(data);
        let (transaction, _) = Self::next(data, &mut cursor)?;
        cursor.is_at_end().then_some(transaction)
    }

    /// What the outputs come to, which is more than 64 bits hold of some that no bundle takes.
    pub fn total(&self) -> u128 {
        self.outputs.iter().map(|amount| u128::from(*amount)).sum()
    }
}

/// A BUMP of the bundle.
pub struct BumpPart {
    /// Where it stands.
    pub at: Range<usize>,
    pub head: Bump,
}

/// A transaction of the bundle.
pub struct Entry {
    /// Where it stands, without the number of its BUMP.
    pub at: Range<usize>,
    pub transaction: Transaction,
    /// The BUMP that it names.
    pub bump: Option<usize>,
}

/// The parts of a bundle.
pub struct Bundle<'a> {
    data: &'a [u8],
    pub bumps: Vec<BumpPart>,
    pub entries: Vec<Entry>,
}

impl<'a> Bundle<'a> {
    /// All parts of a bundle that the library has read.
    pub fn of(data: &'a [u8], told: &Beef) -> Option<Self> {
        let mut bundle = Self { data, bumps: Vec::new(), entries: Vec::new() };
        bundle.fill()?;
        let counts = (bundle.bumps.len() as u64, bundle.entries.len() as u64);
        (counts == (told.bumps, told.transactions)).then_some(bundle)
    }

    /// The parts of a bundle that are whole before a place, where the library has refused it.
    pub fn before(data: &'a [u8], place: usize) -> Self {
        let data = data.get(..place).unwrap_or(data);
        let mut bundle = Self { data, bumps: Vec::new(), entries: Vec::new() };
        let _ = bundle.fill();
        bundle
    }

    fn fill(&mut self) -> Option<()> {
        let data = self.data;
        let mut cursor = Cursor::new(data);
        cursor.bytes(4)?;
        for _ in 0..cursor.number()? {
            let start = cursor.place();
            Levels::next_bump(&mut cursor)?;
            let at = start..cursor.place();
            let head = barrowtide::read_bump(&data[at.clone()]).ok()?;
            self.bumps.push(BumpPart { at, head });
        }
        for _ in 0..cursor.number()? {
            let (transaction, at) = Transaction::next(data, &mut cursor)?;
            let bump = match cursor.byte()? {
                0 => None,
                _ => Some(usize::try_from(cursor.number()?).ok()?),
            };
            self.entries.push(Entry { at, transaction, bump });
        }
        cursor.is_at_end().then_some(())
    }

    pub fn is_empty(&self) -> bool {
        self.bumps.is_empty() && self.entries.is_empty()
    }

    /// The bytes of a part.
    pub fn bytes(&self, at: &Range<usize>) -> &'a [u8] {
        &self.data[at.clone()]
    }

    /// The bytes of a BUMP.
    pub fn bump(&self, number: usize) -> Option<&'a [u8]> {
        self.bumps.get(number).map(|part| self.bytes(&part.at))
    }

    /// The number of the transaction with an id.
    pub fn find(&self, id: &Hash) -> Option<usize> {
        self.entries.iter().position(|entry| entry.transaction.id == *id)
    }

    /// For each input of each transaction the number of its parent, if that stands before it.
    pub fn parents(&self) -> Vec<Vec<Option<usize>>> {
        let mut numbers = HashMap::new();
        let mut parents = Vec::new();
        for (number, entry) in self.entries.iter().enumerate() {
            let of = |input: &Input| numbers.get(&input.parent).copied();
            parents.push(entry.transaction.inputs.iter().map(of).collect());
            numbers.entry(entry.transaction.id).or_insert(number);
        }
        parents
    }

    /// What the library says of each transaction by the BUMP that it names; all of one BUMP are asked
    /// about at once.
    pub fn proofs(&self) -> Option<Vec<Option<Result<Proof, Refusal>>>> {
        let mut proofs: Vec<_> = self.entries.iter().map(|_| None).collect();
        for number in 0..self.bumps.len() {
            let named = |entry: &&(usize, &Entry)| entry.1.bump == Some(number);
            let (at, ids): (Vec<usize>, Vec<Hash>) = self
                .entries
                .iter()
                .enumerate()
                .filter(|entry| named(&entry))
                .map(|(at, entry)| (at, entry.transaction.id))
                .unzip();
            let page = barrowtide::prove_page(self.bump(number)?, &ids).ok()?;
            at.into_iter().zip(page).for_each(|(at, answer)| proofs[at] = Some(answer));
        }
        Some(proofs)
    }
}
