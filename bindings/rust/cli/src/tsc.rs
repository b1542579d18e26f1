//! A TSC proof that the library has read, taken apart for showing it.

use barrowtide::{hex, join, Hash, Proof};

use crate::cursor::Cursor;
use crate::json::{Fields, Json};

/// What the proof is compared with.
pub enum Target {
    BlockHash(Hash),
    /// Its bytes, and the root in them.
    Header(Vec<u8>, Hash),
    Root(Hash),
}

impl Target {
    pub fn word(&self) -> &'static str {
        match self {
            Target::BlockHash(_) => "block hash",
            Target::Header(..) => "header",
            Target::Root(_) => "root",
        }
    }

    /// The root that the proof must lead to, if there is one.
    pub fn root(&self) -> Option<Hash> {
        match self {
            Target::BlockHash(_) => None,
            Target::Header(_, root) | Target::Root(root) => Some(*root),
        }
    }

    /// The target as it is shown: a header as it stands, a hash in printed order.
    fn value(&self) -> String {
        match self {
            Target::Header(bytes, _) => hex::encode(bytes),
            Target::BlockHash(hash) | Target::Root(hash) => hash.to_string(),
        }
    }
}

/// A proof.
pub struct Parts {
    /// The id written, or its transaction's.
    pub id: Hash,
    pub index: u64,
    pub target: Target,
    /// From the bottom up; a copy has no hash.
    pub nodes: Vec<Option<Hash>>,
}

impl Parts {
    /// Those of a proof that the library has read.
    pub fn of(data: &[u8], told: &barrowtide::Tsc) -> Option<Self> {
        let mut cursor = Cursor::new(data);
        let (flags, index) = (cursor.byte()?, cursor.number()?);
        let id = if flags & 1 == 1 {
            let length = cursor.number()?;
            barrowtide::read_transaction(cursor.bytes(length)?).ok()?.id
        } else {
            cursor.hash()?
        };
        let target = match flags & 6 {
            0 => Target::BlockHash(cursor.hash()?),
            2 => {
                let bytes: [u8; 80] = cursor.array()?;
                let root = bytes[36..68].try_into().ok()?;
                Target::Header(bytes.to_vec(), Hash::from_stored(root))
            }
            _ => Target::Root(cursor.hash()?),
        };
        let count = cursor.number()?;
        let node = |cursor: &mut Cursor| match cursor.byte()? {
            0 => Some(Some(cursor.hash()?)),
            _ => Some(None),
        };
        let nodes: Vec<_> = (0..count).map(|_| node(&mut cursor)).collect::<Option<_>>()?;
        let same = (u64::from(flags), index, count) == (told.flags, told.index, told.nodes);
        (same && cursor.is_at_end()).then_some(Self { id, index, target, nodes })
    }

    /// Whether these parts lead to what the library has proved by them.
    pub fn lead_to(&self, proof: &Proof) -> bool {
        let (mut working, mut position) = (self.id, self.index);
        for node in &self.nodes {
            let sibling = node.unwrap_or(working);
            let odd = position % 2 == 1;
            let (left, right) = if odd { (sibling, working) } else { (working, sibling) };
            working = join(&left, &right);
            position /= 2;
        }
        let layers = self.nodes.len() as u64;
        let named = self.target.root().is_none_or(|root| root == proof.root);
        let told = (proof.id, proof.position, proof.layers, proof.root);
        named && told == (self.id, self.index, layers, working)
    }

    /// The nodes, a line each.
    pub fn nodes_text(&self) -> String {
        let said = |node: &Option<Hash>| node.map_or("copy".to_string(), |hash| hash.to_string());
        let line = |(layer, node)| format!("{layer:6}  {}\n", said(node));
        self.nodes.iter().enumerate().map(line).collect()
    }

    /// The target and the nodes for scripts.
    pub fn fields(&self) -> Fields {
        let node = |node: &Option<Hash>| Json::from(node.map(|hash| hash.to_string()));
        vec![
            ("target_value", self.target.value().into()),
            ("target_root", self.target.root().map(|root| root.to_string()).into()),
            ("node_list", Json::List(self.nodes.iter().map(node).collect())),
        ]
    }

    /// The target, in a line or two.
    pub fn target_text(&self) -> String {
        match &self.target {
            Target::Header(bytes, root) => {
                format!("header {}\n          with root {root}", hex::encode(bytes))
            }
            target => format!("{} {}", target.word(), target.value()),
        }
    }
}
