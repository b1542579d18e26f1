//! A BUMP as a picture: which nodes are shown, and where. `svg` draws them.

use std::collections::BTreeSet;

use barrowtide::{join, Bump, Hash, Proof, Reason};

use crate::leaves::{Kind, Levels, Values};
use crate::svg;
use crate::words::Refused;

/// The columns of a picture, at most. A climb of more layers is drawn as a ladder.
const MOST_COLUMNS: usize = 16;

/// The columns for what stands beside a climb.
const BESIDE: usize = 8;

/// A level and an offset.
pub type Place = (usize, u64);

/// One layer of a climb.
pub struct Step {
    /// Where the climb stands.
    pub position: u64,
    /// What was hashed, in this order.
    pub left: Hash,
    pub right: Hash,
    /// What that made.
    pub made: Hash,
}

impl Step {
    fn sibling(&self) -> Hash {
        if self.position % 2 == 1 {
            self.left
        } else {
            self.right
        }
    }
}

/// A climb, as far as it went.
pub struct Climb {
    pub id: Hash,
    pub start: u64,
    pub steps: Vec<Step>,
    /// The sibling where it stopped, and whether that is a twin.
    pub stop: Option<(Place, bool)>,
}

impl Climb {
    /// The climb that the library has made, told layer by layer. `None` within if it didn't start;
    /// `None` if it can't be told so.
    fn told(levels: &Levels, id: &Hash, said: &Result<Proof, Refused>) -> Option<Option<Self>> {
        let (layers, stop) = match said {
            Ok(proof) => (proof.layers, None),
            Err(Refused { refusal, .. }) => {
                let twin = match refusal.reason {
                    Reason::Missing => false,
                    Reason::Twin => true,
                    _ => return Some(None),
                };
                let place = (usize::try_from(refusal.layer).ok()?, refusal.sibling);
                (refusal.layer, Some((place, twin)))
            }
        };
        let start = levels.start(id)?;
        let mut values = Values::of(levels);
        let (mut working, mut position, mut steps) = (*id, start, Vec::new());
        for layer in 0..usize::try_from(layers).ok()? {
            let sibling = match levels.at(layer, position ^ 1) {
                Some(Kind::Copy) => working,
                _ => values.of_node(layer, position ^ 1)?,
            };
            let odd = position % 2 == 1;
            let (left, right) = if odd { (sibling, working) } else { (working, sibling) };
            working = join(&left, &right);
            steps.push(Step { position, left, right, made: working });
            position /= 2;
        }
        let same = match (said, stop) {
            (Ok(proof), _) => proof.root == working,
            (_, Some(((_, sibling), _))) => sibling == position ^ 1,
            _ => false,
        };
        same.then_some(Some(Self { id: *id, start, steps, stop }))
    }

    /// The climb's own place at a level.
    fn passes(&self, level: usize) -> u64 {
        self.start.checked_shr(level as u32).unwrap_or(0)
    }
}

/// How a node comes into the picture.
#[derive(Clone, Copy, PartialEq, Eq)]
pub enum Role {
    /// On the climb, with its hash; above where it stops there is none.
    Climb(Option<Hash>),
    /// A sibling that the climb took.
    Sibling,
    /// A sibling that the climb needs and can't have.
    Missing,
    /// A sibling that equals the working hash.
    Twin,
    /// Anything else.
    Other,
}

/// A node of the picture.
pub struct Node {
    pub place: Place,
    pub role: Role,
    /// What is written there.
    pub written: Option<Kind>,
    /// Its value, written or worked out.
    pub value: Option<Hash>,
    /// How many leaves lie under it that are not shown.
    pub folded: usize,
    /// In columns from the left.
    pub column: f64,
    pub children: Vec<Node>,
}

impl Node {
    /// Puts the climb into the middle of three columns, and its siblings on their side.
    fn stand_straight(&mut self) {
        for child in &mut self.children {
            child.column = match child.role {
                Role::Climb(_) => 1.0,
                _ if child.place.1 % 2 == 0 => 0.0,
                _ => 2.0,
            };
            child.stand_straight();
        }
    }
}

/// Everything that is drawn.
pub struct Picture<'a> {
    pub head: &'a Bump,
    pub levels: &'a Levels,
    /// Where the BUMP is from, and which climb it is.
    pub notes: Vec<String>,
    pub climb: Option<Climb>,
    /// What the library said of the id that was asked about.
    pub said: Option<(&'a Hash, &'a Result<Proof, Refused>)>,
    pub root: Node,
    pub columns: usize,
}

/// The picture of a BUMP that the library has read, and of the climb of an id that it was asked
/// about. `None` if what the library said can't be told layer by layer.
pub fn picture(
    head: &Bump,
    levels: &Levels,
    notes: Vec<String>,
    said: Option<(&Hash, &Result<Proof, Refused>)>,
) -> Option<String> {
    let climb = match said {
        Some((id, said)) => Climb::told(levels, id, said)?,
        None => None,
    };
    let height = levels.0.len();
    let counts = Counts::of(levels);
    let mut values = Values::of(levels);
    let open = match &climb {
        Some(climb) => counts.open_beside(climb, height),
        None => counts.open_evenly(height),
    };
    let mut columns = 0;
    let ladder = climb.is_some() && height >= MOST_COLUMNS;
    let mut plan = Plan { levels, counts, values: &mut values, climb: climb.as_ref(), open };
    let mut root = plan.node((height, 0), &mut columns);
    if ladder {
        root.column = 1.0;
        root.stand_straight();
        columns = 3;
    }
    Some(svg::text(&Picture { head, levels, notes, climb, said, root, columns }))
}

/// The offsets of each level, rising, to count leaves under nodes.
struct Counts(Vec<Vec<u64>>);

impl Counts {
    fn of(levels: &Levels) -> Self {
        let rising = |leaves: &Vec<crate::leaves::Leaf>| {
            let mut offsets: Vec<u64> = leaves.iter().map(|leaf| leaf.offset).collect();
            offsets.sort_unstable();
            offsets
        };
        Self(levels.0.iter().map(rising).collect())
    }

    /// How many leaves of a level lie under a node of this level or a higher one.
    fn of_level(&self, low: usize, (level, offset): Place) -> usize {
        let Some(offsets) = self.0.get(low) else { return 0 };
        let depth = (level - low) as u32;
        let least = offset.checked_shl(depth).unwrap_or(0);
        let greatest = least | 1_u64.checked_shl(depth).map_or(u64::MAX, |size| size - 1);
        let below = |bound: u64| offsets.partition_point(|offset| *offset < bound);
        let up_to = offsets.partition_point(|offset| *offset <= greatest);
        up_to - below(least)
    }

    /// How many leaves lie under a node, itself left out.
    fn under(&self, place: Place) -> usize {
        (0..place.0).map(|low| self.of_level(low, place)).sum()
    }

    /// The children of a node where something is written at or under them.
    fn children(&self, (level, offset): Place) -> Vec<Place> {
        let Some(low) = level.checked_sub(1) else { return Vec::new() };
        let both = [(low, 2 * offset), (low, 2 * offset + 1)];
        let shown = |place: &Place| self.of_level(low, *place) + self.under(*place) > 0;
        both.into_iter().filter(shown).collect()
    }

    /// Opens a node and all under it if that takes no more columns than there are left.
    fn open_whole(&self, place: Place, left: &mut usize, open: &mut BTreeSet<Place>) {
        let (mut opened, mut stack, mut columns) = (Vec::new(), vec![place], 0);
        while let Some(place) = stack.pop() {
            let children = self.children(place);
            if children.is_empty() {
                columns += 1;
            } else {
                opened.push(place);
                stack.extend(children);
            }
            // The node takes one column in any case.
            if columns + stack.len() > *left + 1 {
                return;
            }
        }
        *left -= columns.saturating_sub(1);
        open.extend(opened);
    }

    /// What is shown of a picture with a climb: all of the climb, and what stands beside it where it
    /// is little and the climb is no ladder.
    fn open_beside(&self, climb: &Climb, height: usize) -> BTreeSet<Place> {
        let mut open: BTreeSet<Place> =
            (1..=height).map(|level| (level, climb.passes(level))).collect();
        let mut left = BESIDE;
        for level in (0..height).filter(|_| height < MOST_COLUMNS) {
            self.open_whole((level, climb.passes(level) ^ 1), &mut left, &mut open);
        }
        open
    }

    /// What is shown of a picture without a climb: levels from the top down, while there is room.
    fn open_evenly(&self, height: usize) -> BTreeSet<Place> {
        let mut open = BTreeSet::new();
        let mut ends = vec![(height, 0)];
        loop {
            let next: Vec<Place> = ends
                .iter()
                .flat_map(|place| {
                    let children = self.children(*place);
                    if children.is_empty() {
                        vec![*place]
                    } else {
                        children
                    }
                })
                .collect();
            if next == ends || next.len() > MOST_COLUMNS {
                return open;
            }
            open.extend(ends);
            ends = next;
        }
    }
}

/// What is shown, and what is known of it.
struct Plan<'a> {
    levels: &'a Levels,
    counts: Counts,
    values: &'a mut Values<'a>,
    climb: Option<&'a Climb>,
    open: BTreeSet<Place>,
}

impl Plan<'_> {
    fn node(&mut self, place: Place, columns: &mut usize) -> Node {
        let (level, offset) = place;
        let mut shown = Vec::new();
        if self.open.contains(&place) {
            shown = self.counts.children(place);
            if let (Some(climb), Some(low)) = (self.climb, level.checked_sub(1)) {
                if climb.passes(level) == offset {
                    let on = climb.passes(low);
                    shown = vec![(low, on & !1), (low, on | 1)];
                }
            }
        }
        let children: Vec<Node> = shown.iter().map(|child| self.node(*child, columns)).collect();
        let column = match (children.first(), children.last()) {
            (Some(first), Some(last)) => (first.column + last.column) / 2.0,
            _ => {
                *columns += 1;
                (*columns - 1) as f64
            }
        };
        Node {
            place,
            role: self.role(place),
            written: self.levels.at(level, offset),
            value: self.value(place),
            folded: if children.is_empty() { self.counts.under(place) } else { 0 },
            column,
            children,
        }
    }

    /// The value of a node; a copy that the climb took has the working hash.
    fn value(&mut self, place: Place) -> Option<Hash> {
        let (level, offset) = place;
        match self.climb.and_then(|climb| climb.steps.get(level)) {
            Some(step) if self.role(place) == Role::Sibling => Some(step.sibling()),
            _ => self.values.of_node(level, offset),
        }
    }

    fn role(&self, (level, offset): Place) -> Role {
        let Some(climb) = self.climb else { return Role::Other };
        if climb.passes(level) == offset {
            return Role::Climb(match level.checked_sub(1) {
                None => Some(climb.id),
                Some(low) => climb.steps.get(low).map(|step| step.made),
            });
        }
        match climb.stop {
            Some((stop, twin)) if stop == (level, offset) => {
                if twin {
                    Role::Twin
                } else {
                    Role::Missing
                }
            }
            _ if climb.passes(level) ^ 1 == offset && level < climb.steps.len() => Role::Sibling,
            _ => Role::Other,
        }
    }
}
