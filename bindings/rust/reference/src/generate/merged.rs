//! Paths that leave inner nodes out, to be worked out from the nodes below.

use std::collections::BTreeSet;

use super::path::{node_leaf, Leaf, Plan};
use super::random::Random;
use super::tree::Tree;
use crate::bump;
use crate::climb::{beside, climb, Sibling};
use crate::path::Path;
use crate::values::Values;
use crate::Hash;

impl Plan {
    /// Every node of a tree but its root, the ids as clients.
    pub fn whole(tree: &Tree) -> Self {
        let mut plan = Self { block_height: 0, levels: vec![Vec::new(); tree.height()] };
        for (layer, level) in plan.levels.iter_mut().enumerate() {
            let offsets = (0..).take_while(|&offset| tree.node(layer, offset) != Sibling::Missing);
            level.extend(offsets.map(|offset| node_leaf(tree, layer, offset)));
        }
        for leaf in plan.levels[0].iter_mut().filter(|leaf| leaf.flags == 0) {
            leaf.flags = 2;
        }
        plan
    }

    /// The tallest path, of a client at position 2^63: every sibling below the top is a copy, and
    /// so is every right child below the top sibling, which is worked out from a leaf of `bb`s.
    pub fn copies(id: Hash) -> Self {
        let position = 1 << 63;
        let leaf = |offset, flags| Leaf { offset, flags, hash: [0xbb; 32] };
        let mut plan = Self { block_height: 0, levels: vec![Vec::new(); 64] };
        plan.levels[0] = vec![leaf(0, 0), Leaf { hash: id, ..leaf(position, 2) }];
        for layer in 0..63 {
            plan.levels[layer].extend([leaf(1, 1), leaf((position >> layer) + 1, 1)]);
        }
        plan
    }

    /// Some inner nodes of a path of a tree are left out; where its other leaves don't give such a
    /// node, nodes below it are written instead. All climbs keep their root.
    pub fn thin(&mut self, random: &mut Random, tree: &Tree) {
        for _ in 0..random.within(0..=6) {
            let level = random.index(self.levels.len());
            let inner = |leaf: &&Leaf| tree.node(level, leaf.offset) != Sibling::Missing;
            let offsets: Vec<u64> =
                self.levels[level].iter().filter(inner).map(|leaf| leaf.offset).collect();
            if level > 0 && !offsets.is_empty() {
                let offset = random.pick(&offsets);
                self.levels[level].retain(|leaf| leaf.offset != offset);
                self.supply(random, tree, (level, offset), offset);
            }
        }
    }

    /// Writes what the value at a place above level 0 lacks: that of the tree's node at `source`.
    fn supply(&mut self, random: &mut Random, tree: &Tree, place: (usize, u64), source: u64) {
        let (level, offset) = place;
        if self.has_value(level, offset) {
            return;
        }
        // Beside the last node of an odd number stands that node once more.
        let source = if tree.node(level, source) == Sibling::Copy { source - 1 } else { source };
        for side in [0, 1] {
            let (child, from) = (2 * offset + side, 2 * source + side);
            if level > 1 && random.one_in(2) {
                self.supply(random, tree, (level - 1, child), from);
            } else if !self.has_value(level - 1, child) {
                let leaf = Leaf { offset: child, ..node_leaf(tree, level - 1, from) };
                self.levels[level - 1].push(leaf);
            }
        }
    }

    fn has_value(&self, level: usize, offset: u64) -> bool {
        let path = self.path().expect("a sound path");
        let found = Values::of(&path).value(level, offset);
        found.is_some()
    }

    /// The path as a BUMP is read, if it can be.
    pub fn path(&self) -> Option<Path> {
        bump::read(&self.bump().bytes).ok().map(|bump| bump.path)
    }

    /// The places that a climb asks about; none if the path can't be read.
    pub fn asked(&self, id: Hash, position: u64) -> BTreeSet<(usize, u64)> {
        let Some(path) = self.path() else {
            return BTreeSet::new();
        };
        let mut values = Values::of(&path);
        let mut siblings = BTreeSet::new();
        let _ = climb(id, position, path.tree_height(), |layer, offset| {
            siblings.insert((layer, offset));
            values.sibling(layer, offset)
        });
        siblings.extend(values.asked().keys());
        siblings
    }

    /// A path of no block that proves a client's id: each sibling is written, a copy, or to be
    /// worked out from nodes that are so in turn. Leaves may stand on the climb's own way.
    pub fn grown(random: &mut Random, id: Hash) -> Self {
        let tall = random.pick(&[32, 33, 63, 64]);
        let height = if random.one_in(50) { tall } else { random.within(1..=7) as usize };
        let position = random.bits() >> (64 - height);
        let mut plan = Self { block_height: 0, levels: vec![Vec::new(); height] };
        plan.levels[0].push(Leaf { offset: position, flags: 2, hash: id });
        for layer in 0..height {
            plan.grow(random, layer, beside(position >> layer));
            if layer > 0 && random.one_in(8) {
                plan.write(random, layer, position >> layer);
            }
        }
        for level in &mut plan.levels {
            random.shuffle(level);
        }
        plan
    }

    /// Gives a place a value: by a leaf, under which there may be others, or by its children.
    fn grow(&mut self, random: &mut Random, level: usize, offset: u64) {
        let last = level == 0 || self.levels[level - 1].len() > 1_000;
        let written = last || random.one_in(2);
        if written {
            self.write(random, level, offset);
        }
        if !written || (!last && random.one_in(6)) {
            self.grow(random, level - 1, 2 * offset);
            self.grow(random, level - 1, 2 * offset + 1);
        }
    }

    /// Writes a node that nothing is known of, or a copy.
    fn write(&mut self, random: &mut Random, level: usize, offset: u64) {
        let flags = u8::from(offset % 2 == 1 && random.one_in(2));
        let hash = random.hash();
        self.levels[level].push(Leaf { offset, flags, hash });
    }

    /// A path of a block of up to `most` ids, which are its clients, with inner nodes left out;
    /// every second one is in no order, and every second one has changes by which worked-out
    /// values may be lost or become others.
    pub fn merged(random: &mut Random, most: u64) -> Self {
        let count = random.within(2..=most) as usize;
        let tree = Tree::random(random, count);
        let mut plan = Self::whole(&tree);
        if random.one_in(3) {
            plan.levels[1..].iter_mut().for_each(Vec::clear);
        } else {
            plan.thin(random, &tree);
        }
        if random.one_in(2) {
            plan.levels.iter_mut().for_each(|level| random.shuffle(level));
        }
        if random.one_in(2) {
            (0..random.within(1..=3)).for_each(|_| plan.unsettle(random));
        }
        plan
    }

    /// A change by which a worked-out value may be lost or become another.
    pub fn unsettle(&mut self, random: &mut Random) {
        match random.within(0..=3) {
            0 => self.cut(random),
            1 => self.overrule(random),
            kind => self.mirror(random, kind == 2),
        }
    }

    /// Leaves out any one leaf, often far down.
    pub fn cut(&mut self, random: &mut Random) {
        let mut at = random.index(self.levels.iter().map(Vec::len).sum::<usize>().max(1));
        for level in &mut self.levels {
            if at < level.len() {
                level.remove(at);
                return;
            }
            at -= level.len();
        }
    }

    /// The first client leaf.
    fn client(&self) -> Option<Leaf> {
        self.levels.first()?.iter().find(|leaf| leaf.flags == 2).copied()
    }

    /// Writes something at a place that a client's climb asks about and that has no leaf.
    fn overrule(&mut self, random: &mut Random) {
        let Some(client) = self.client() else {
            return;
        };
        let free = |place: &(usize, u64)| self.leaf(place.0, place.1).is_none();
        let places: Vec<_> =
            self.asked(client.hash, client.offset).into_iter().filter(free).collect();
        if !places.is_empty() {
            let (level, offset) = random.pick(&places);
            self.write(random, level, offset);
        }
    }

    /// Makes a sibling on the left of a client's climb a twin to be worked out: what lies under the
    /// climb is written under the sibling, too. With `hidden` the client's id is not: the parent
    /// stands there.
    fn mirror(&mut self, random: &mut Random, hidden: bool) {
        let Some(client) = self.client() else {
            return;
        };
        let odd = |layer: &usize| client.offset >> layer & 1 == 1;
        let layers: Vec<usize> = (1..self.levels.len()).filter(odd).collect();
        if layers.is_empty() {
            return;
        }
        let layer = random.pick(&layers);
        let node = client.offset >> layer;
        let parent = self.path().and_then(|path| Values::of(&path).value(1, client.offset / 2));
        for (level, leaves) in self.levels[..=layer].iter_mut().enumerate() {
            leaves.retain(|leaf| leaf.offset >> (layer - level) != node - 1);
            let under = |leaf: &&Leaf| level < layer && leaf.offset >> (layer - level) == node;
            let mut images: Vec<Leaf> = leaves.iter().filter(under).copied().collect();
            for image in &mut images {
                image.offset -= 1 << (layer - level);
                image.flags %= 2;
            }
            leaves.append(&mut images);
        }
        let image = client.offset - (1 << layer);
        if let Some(hash) = parent.filter(|_| hidden && layer > 1) {
            self.levels[0].retain(|leaf| leaf.offset / 2 != image / 2);
            self.levels[1].retain(|leaf| leaf.offset != image / 2);
            self.levels[1].push(Leaf { offset: image / 2, flags: 0, hash });
        }
    }
}
