//! Whether random paths showed everything that can come of leaving nodes out.

use std::collections::BTreeMap;

use reference::climb::climb;
use reference::path::{Node, Path};
use reference::refusal::{Refusal, MISSING, TWIN};
use reference::sha256::join;
use reference::values::Values;
use reference::Hash;

/// What a climb shows, or a place below it that it asks about.
#[derive(Debug, Clone, Copy, PartialEq, Eq, PartialOrd, Ord)]
enum Met {
    /// Accepted with a worked-out sibling.
    WorkedOut,
    /// The same over three levels or more.
    Chain,
    /// Accepted with a worked-out sibling that equals the working hash.
    Equal,
    /// 14 though a value below the sibling can be had.
    Gap,
    /// 15 by a worked-out sibling.
    Twin,
    /// A copy as sibling, with a leaf on the climb's own way beside it.
    CopyBesideLeaf,
    /// A copy at level 0 in what is worked out.
    CopyAtGround,
    /// A copy above level 0 in what is worked out.
    CopyAbove,
    /// A copy of a worked-out node.
    CopyOfWorkedOut,
    /// A copy whose children have values.
    CopyOverChildren,
    /// A copy beside nothing.
    CopyOfNothing,
    /// A hash that is not the join of its children.
    HashOverChildren,
    /// A worked-out join of two equal children.
    EqualChildren,
}

const ALL: [Met; 13] = [
    Met::WorkedOut,
    Met::Chain,
    Met::Equal,
    Met::Gap,
    Met::Twin,
    Met::CopyBesideLeaf,
    Met::CopyAtGround,
    Met::CopyAbove,
    Met::CopyOfWorkedOut,
    Met::CopyOverChildren,
    Met::CopyOfNothing,
    Met::HashOverChildren,
    Met::EqualChildren,
];

/// A level and an offset.
type Place = (usize, u64);

/// How often each was met.
#[derive(Debug, Default)]
pub struct Seen(BTreeMap<Met, u64>);

impl Seen {
    /// Fails unless everything was met.
    pub fn assert_all(&self) {
        for met in ALL {
            assert!(self.0.contains_key(&met), "{met:?} was not met; met were {:?}", self.0);
        }
    }

    fn note(&mut self, met: Met, when: bool) {
        if when {
            *self.0.entry(met).or_default() += 1;
        }
    }

    /// Counts what the climb of an id shows.
    pub fn see(&mut self, path: &Path, id: Hash, position: u64) {
        let mut values = Values::of(path);
        let mut siblings: Vec<Place> = Vec::new();
        let told = climb(id, position, path.tree_height(), |layer, offset| {
            siblings.push((layer, offset));
            values.sibling(layer, offset)
        });
        let asked = values.asked();
        let worked_out = |place: &Place| path.leaf(place.0, place.1).is_none();
        let last = siblings[siblings.len() - 1];
        match told {
            Ok(climb) => {
                for place in siblings.iter().filter(|place| worked_out(place)) {
                    self.note(Met::WorkedOut, true);
                    let deep = |other: &Place| other.0 + 3 <= place.0 && under(*other, *place);
                    self.note(Met::Chain, asked.keys().any(deep));
                    let string = climb.layers[place.0].string;
                    self.note(Met::Equal, string[..32] == string[32..]);
                }
            }
            Err(Refusal { number, layer, sibling, .. }) => {
                assert_eq!((layer as usize, sibling), last);
                let had = |(other, value): (&Place, &Option<Hash>)| {
                    value.is_some() && other.0 < last.0 && under(*other, last)
                };
                self.note(Met::Gap, number == MISSING && asked.iter().any(had));
                self.note(Met::Twin, number == TWIN && worked_out(&last));
            }
        }
        for &(level, offset) in &siblings {
            let copy = level > 0 && is_copy(path, (level, offset));
            self.note(Met::CopyBesideLeaf, copy && path.leaf(level, offset - 1).is_some());
        }
        let mut below = Values::of(path);
        for (place, value) in asked.iter().filter(|asked| !siblings.contains(asked.0)) {
            self.see_below(path, &mut below, *place, *value);
        }
    }

    /// Counts what is seen at a place below the climb.
    fn see_below(
        &mut self,
        path: &Path,
        values: &mut Values,
        (level, offset): Place,
        value: Option<Hash>,
    ) {
        let mut child = |side| values.value(level.checked_sub(1)?, 2 * offset + side);
        let children = child(0).zip(child(1));
        match path.leaf(level, offset).map(|leaf| leaf.node) {
            Some(Node::Copy) => {
                self.note(if level == 0 { Met::CopyAtGround } else { Met::CopyAbove }, true);
                self.note(Met::CopyOfWorkedOut, path.leaf(level, offset - 1).is_none());
                self.note(Met::CopyOverChildren, children.is_some());
            }
            Some(_) => {
                let other =
                    children.is_some_and(|(left, right)| Some(join(&left, &right)) != value);
                self.note(Met::HashOverChildren, other);
            }
            None => {
                let equal = children.is_some_and(|(left, right)| left == right);
                self.note(Met::EqualChildren, equal);
                let copied = offset % 2 == 0 && is_copy(path, (level, offset + 1));
                self.note(Met::CopyOfNothing, value.is_none() && copied);
            }
        }
    }
}

fn is_copy(path: &Path, place: Place) -> bool {
    path.leaf(place.0, place.1).is_some_and(|leaf| leaf.node == Node::Copy)
}

/// Whether a place is another one or lies under it.
fn under(place: Place, upper: Place) -> bool {
    place.0 <= upper.0 && place.1 >> (upper.0 - place.0) == upper.1
}
