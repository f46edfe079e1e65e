//! Sound pools of every shape, built directly as trees.

use crate::rng::Rng;
use crate::twin::{edge, inner, leaf, Edge, Node, Set, MOST_SLOTS};

/// How a subtree's keys are split between its children.
#[derive(Clone, Copy, Debug, PartialEq)]
pub enum Shape {
    /// One key on the left, the rest on the right.
    ChainRight,
    /// The other way round.
    ChainLeft,
    /// One key on either side, in turns of chance: long zigzags.
    Zigzag,
    Halves,
    Any,
}

/// What an edge to an inner node takes of the sum that is left for it.
#[derive(Clone, Copy, Debug, PartialEq)]
pub enum Weights {
    /// All red: the leaves carry everything.
    Red,
    /// Mostly red.
    Reddish,
    /// 0 or 1.
    Light,
    /// Anything.
    Heavy,
}

/// Slots of a large pool where the limit is not the matter: as many as were the most before request (viii).
pub const LARGE: usize = 1023;
/// The keys that they hold, and the most slots.
pub const LARGE_KEYS: usize = LARGE.div_ceil(2);
pub const MOST_KEYS: usize = MOST_SLOTS.div_ceil(2);

pub const SHAPES: [Shape; 5] = [Shape::ChainRight, Shape::ChainLeft, Shape::Zigzag, Shape::Halves, Shape::Any];
pub const WEIGHTS: [Weights; 4] = [Weights::Red, Weights::Reddish, Weights::Light, Weights::Heavy];

/// What a tree is grown from.
struct Seedbed<'a> {
    rng: &'a mut Rng,
    /// Taken from the end, a node before those below it.
    slots: Vec<u32>,
    shape: Shape,
    weights: Weights,
}

impl Seedbed<'_> {
    fn split(&mut self, keys: usize) -> usize {
        match self.shape {
            Shape::ChainRight => 1,
            Shape::ChainLeft => keys - 1,
            Shape::Zigzag => self.rng.pick(&[1, keys - 1]),
            Shape::Halves => keys / 2,
            Shape::Any => 1 + self.rng.below(keys - 1),
        }
    }

    /// An inner node leaves at least 1 for the leaves below it.
    fn weight(&mut self, sum: u32) -> u32 {
        match self.weights {
            Weights::Red => 0,
            Weights::Reddish => u32::from(sum > 1 && self.rng.one_in(8)),
            Weights::Light => self.rng.within(0, 1).min(sum - 1),
            Weights::Heavy => self.rng.within(0, sum - 1),
        }
    }

    /// A subtree of ascending keys, whose leaves all lie `sum` below its upper end.
    fn edge(&mut self, keys: &[u32], sum: u32) -> Edge {
        if keys.len() == 1 {
            return edge(sum, self.node(keys, 0));
        }
        let weight = self.weight(sum);
        edge(weight, self.node(keys, sum - weight))
    }

    fn node(&mut self, keys: &[u32], sum: u32) -> Node {
        let slot = self.slots.pop().expect("enough slots");
        if keys.len() == 1 {
            return leaf(slot, keys[0]);
        }
        let (low, high) = keys.split_at(self.split(keys.len()));
        // "A router need not be a key present."
        let router = self.rng.within(low[low.len() - 1], high[0] - 1);
        let left = self.edge(low, sum);
        inner(slot, router, left, self.edge(high, sum))
    }
}

/// A set of the given ascending keys and level, its slots in random places.
pub fn grown(rng: &mut Rng, slots: usize, keys: &[u32], level: u32, shape: Shape, weights: Weights) -> Set {
    let mut order: Vec<u32> = (1..=slots as u32).collect();
    rng.shuffle(&mut order);
    let mut bed = Seedbed { rng, slots: order, shape, weights };
    let tree = (!keys.is_empty()).then(|| edge(1, bed.node(keys, level)));
    Set { slots, tree, free: bed.slots }
}

/// As many different keys, ascending, from 0 to `highest`.
pub fn some_keys(rng: &mut Rng, count: usize, highest: u32) -> Vec<u32> {
    let mut keys = std::collections::BTreeSet::new();
    while keys.len() < count {
        keys.insert(rng.within(0, highest));
    }
    keys.into_iter().collect()
}

/// The most keys that fit, half of them in a chain to the left and half in one to the right, every inner edge red: far to the first leaf
/// and to the last. The root is slot 1.
pub fn two_chains(slots: usize, level: u32) -> Set {
    let keys: Vec<u32> = (0..).take(slots.div_ceil(2)).collect();
    let (low, high) = keys.split_at(keys.len() / 2);
    let mut rng = Rng::seeded("two chains", 1);
    let mut bed = Seedbed { rng: &mut rng, slots: (2..=slots as u32).rev().collect(), shape: Shape::ChainLeft, weights: Weights::Red };
    let left = bed.edge(low, level);
    bed.shape = Shape::ChainRight;
    let right = bed.edge(high, level);
    Set { slots, tree: Some(edge(1, inner(1, low[low.len() - 1], left, right))), free: bed.slots }
}

/// A chain of the most keys that fit, every inner edge red: as deep as a sound tree gets.
pub fn deepest(slots: usize, shape: Shape) -> Set {
    deepest_from(0, slots, shape)
}

/// The same with other keys: so many from `first` on.
pub fn deepest_from(first: u32, slots: usize, shape: Shape) -> Set {
    chain(first, slots, 1, shape)
}

/// The same with leaves of weight `level`.
pub fn deepest_and_heavy(slots: usize, level: u32, shape: Shape) -> Set {
    chain(0, slots, level, shape)
}

fn chain(first: u32, slots: usize, level: u32, shape: Shape) -> Set {
    let keys: Vec<u32> = (0..slots.div_ceil(2) as u32).map(|i| first + i).collect();
    grown(&mut Rng::seeded("the deepest tree", 1), slots, &keys, level, shape, Weights::Red)
}
