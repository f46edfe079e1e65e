//! The eight kinds, a step, the first allowed step, settle; on a sound pool.

mod awake;

use crate::code;
use crate::pool::{level, put, read, root, set_level, slots_of, word, Slot, HEAVIEST, KEY, LEFT, RIGHT, WEIGHT};

pub use awake::settle_awake;

const KINDS: u32 = 8;

/// A command's two answer words.
pub struct Answer {
    pub code: u32,
    pub number: u32,
}

impl Answer {
    pub fn good(number: u32) -> Answer {
        Answer { code: code::GOOD, number }
    }

    pub fn refused(code: u32) -> Answer {
        Answer { code, number: 0 }
    }
}

fn weight(pool: &[u32], slot: u32) -> u32 {
    word(pool, slot, WEIGHT)
}

/// Left and right forms are one text: `side` is LEFT or RIGHT, that of the child that the kind speaks of.
fn other(side: usize) -> usize {
    LEFT + RIGHT - side
}

fn child(pool: &[u32], slot: u32, side: usize) -> u32 {
    word(pool, slot, side)
}

/// An inner node has a right child; a leaf and a free slot have 0 there.
fn is_inner(slot: Slot) -> bool {
    slot.right != 0
}

/// What a step at v looks at, each word read once. (What is always inlined below keeps it in registers. In memory the compiler copies a slot
/// whole, and reads some of its words once more by themselves: `host/accesses` counts that.)
#[derive(Clone, Copy)]
struct Around {
    v: Slot,
    left: Child,
    right: Child,
}

/// A child of v. A red one is no leaf, and what lies below it decides too.
#[derive(Clone, Copy)]
struct Child {
    words: Slot,
    below_red: Option<Below>,
}

/// The children of a red child: of the one on its own side the weight, of the one between it and v's other child all words.
#[derive(Clone, Copy)]
struct Below {
    outer: u32,
    middle: Slot,
}

impl Child {
    #[inline(always)]
    fn read(pool: &[u32], slot: u32, side: usize) -> Child {
        let words = read(pool, slot);
        let below = || Below { outer: weight(pool, words.child(side)), middle: read(pool, words.child(other(side))) };
        Child { words, below_red: (words.weight == 0).then(below) }
    }
}

impl Around {
    #[inline(always)]
    fn read(pool: &[u32], v: Slot) -> Around {
        Around { v, left: Child::read(pool, v.left, LEFT), right: Child::read(pool, v.right, RIGHT) }
    }

    #[inline(always)]
    fn child(&self, side: usize) -> &Child {
        if side == LEFT {
            &self.left
        } else {
            &self.right
        }
    }

    fn red(&self, side: usize) -> bool {
        self.child(side).below_red.is_some()
    }

    /// Whether the child on a side is red and has a red child on the same side.
    fn outer_red(&self, side: usize) -> bool {
        self.child(side).below_red.is_some_and(|below| below.outer == 0)
    }

    /// Whether the child on a side is red and has a red child on the other side.
    fn middle_red(&self, side: usize) -> bool {
        self.child(side).below_red.is_some_and(|below| below.middle.weight == 0)
    }

    fn overweighted(&self, side: usize) -> bool {
        self.child(side).words.weight > 1
    }

    #[inline(always)]
    fn condition(&self, kind: u32) -> bool {
        match kind {
            1 => self.red(LEFT) && self.red(RIGHT) && self.some_grandchild_red() && self.v.weight != 0,
            2 => self.rotates(LEFT) && self.outer_red(LEFT),
            3 => self.rotates(RIGHT) && self.outer_red(RIGHT),
            4 => self.rotates(LEFT) && self.middle_red(LEFT),
            5 => self.rotates(RIGHT) && self.middle_red(RIGHT),
            6 => !self.red(LEFT) && !self.red(RIGHT) && (self.overweighted(LEFT) || self.overweighted(RIGHT)),
            7 => self.lightens(LEFT),
            _ => self.lightens(RIGHT),
        }
    }

    fn some_grandchild_red(&self) -> bool {
        self.outer_red(LEFT) || self.middle_red(LEFT) || self.middle_red(RIGHT) || self.outer_red(RIGHT)
    }

    /// Kinds 2 to 5, but for the red grandchild: the child on `side` red, the other not, v not red.
    fn rotates(&self, side: usize) -> bool {
        self.red(side) && !self.red(other(side)) && self.v.weight != 0
    }

    /// Kinds 7 and 8: the child t on `side` overweighted, the other child u red, u's child on `side` not red.
    fn lightens(&self, side: usize) -> bool {
        self.overweighted(side) && self.red(other(side)) && !self.middle_red(other(side))
    }
}

fn add_to_weight(pool: &mut [u32], slot: u32, by: i32) {
    let now = weight(pool, slot);
    put(pool, slot, WEIGHT, now.wrapping_add_signed(by));
}

/// "unless v is root". There all ways to leaves change by what the children's edges do, and L with them.
fn add_to_parent_edge(pool: &mut [u32], v: u32, by: i32) {
    if v != root(pool) {
        add_to_weight(pool, v, by);
    } else {
        set_level(pool, level(pool).wrapping_add_signed(-by));
    }
}

fn add_to_children(pool: &mut [u32], v: u32, by: i32) {
    add_to_weight(pool, child(pool, v, LEFT), by);
    add_to_weight(pool, child(pool, v, RIGHT), by);
}

/// `around` is what lies around v. Kinds 4 and 5 read nothing more.
#[inline(always)]
fn effect(pool: &mut [u32], v: u32, around: &Around, kind: u32) {
    match kind {
        1 => {
            add_to_children(pool, v, 1);
            add_to_parent_edge(pool, v, -1);
        }
        2 => {
            rotate(pool, v, LEFT);
        }
        3 => {
            rotate(pool, v, RIGHT);
        }
        4 => rotate_twice(pool, v, around, LEFT),
        5 => rotate_twice(pool, v, around, RIGHT),
        6 => {
            add_to_children(pool, v, -1);
            add_to_parent_edge(pool, v, 1);
        }
        7 => lighten(pool, v, RIGHT),
        _ => lighten(pool, v, LEFT),
    }
}

/// Gives an inner node its router and its children, the one on `side` first. Its weight stays.
fn fill(pool: &mut [u32], slot: u32, router: u32, side: usize, near: u32, far: u32) {
    put(pool, slot, KEY, router);
    put(pool, slot, side, near);
    put(pool, slot, other(side), far);
}

/// Lifts the child u on `side` over v: contents are exchanged, slots keep their numbers. Gives the lowered slot u.
fn rotate(pool: &mut [u32], v: u32, side: usize) -> u32 {
    let u = child(pool, v, side);
    let (v_router, u_router) = (word(pool, v, KEY), word(pool, u, KEY));
    let (u_near, u_far) = (child(pool, u, side), child(pool, u, other(side)));
    let v_far = child(pool, v, other(side));
    fill(pool, v, u_router, side, u_near, u);
    fill(pool, u, v_router, side, u_far, v_far);
    u
}

/// Kind 4 (side left) and 5: t, u's inner child, takes v's router and its place beside u. Six words change; these are written.
#[inline(always)]
fn rotate_twice(pool: &mut [u32], v_slot: u32, around: &Around, side: usize) {
    let far = other(side);
    let (v, u) = (around.v, around.child(side));
    let Some(Below { middle: t, .. }) = u.below_red else {
        return; // the condition is that u is red
    };
    let (u_slot, t_slot) = (v.child(side), u.words.child(far));
    put(pool, v_slot, KEY, t.key);
    put(pool, v_slot, far, t_slot);
    put(pool, u_slot, far, t.child(side));
    put(pool, t_slot, KEY, v.key);
    put(pool, t_slot, side, t.child(far));
    put(pool, t_slot, far, v.child(far));
}

/// "single rotation, then kind 6 at the lowered node"
fn lighten(pool: &mut [u32], v: u32, side: usize) {
    let lowered = rotate(pool, v, side);
    add_to_children(pool, lowered, -1);
    add_to_weight(pool, lowered, 1);
}

/// Kind 1 at the root raises L, which may not pass 255.
fn too_tall(pool: &[u32], v: u32, kind: u32) -> bool {
    kind == 1 && v == root(pool) && level(pool) == HEAVIEST
}

pub fn step(pool: &mut [u32], slot: u32, kind: u32) -> Answer {
    if slot == 0 || slot > slots_of(pool) {
        return Answer::refused(code::NO_INNER_NODE);
    }
    let v = read(pool, slot);
    if !is_inner(v) {
        return Answer::refused(code::NO_INNER_NODE);
    }
    if kind == 0 || kind > KINDS {
        return Answer::refused(code::NO_KIND);
    }
    let around = Around::read(pool, v);
    if !around.condition(kind) {
        return Answer::refused(code::CONDITION_FALSE);
    }
    if too_tall(pool, slot, kind) {
        return Answer::refused(code::TOO_TALL);
    }
    effect(pool, slot, &around, kind);
    Answer::good(kind)
}

/// An allowed step, with what was read to find it.
struct Found {
    slot: u32,
    kind: u32,
    around: Around,
}

/// "the lowest slot with an allowed kind, and there the lowest kind"
#[inline]
fn first_found(pool: &[u32]) -> Option<Found> {
    for slot in 1..=slots_of(pool) {
        let v = read(pool, slot);
        if !is_inner(v) {
            continue;
        }
        let around = Around::read(pool, v);
        for kind in 1..=KINDS {
            if around.condition(kind) && !too_tall(pool, slot, kind) {
                return Some(Found { slot, kind, around });
            }
        }
    }
    None
}

/// The same without what was read; slot 0 if no step is allowed.
pub fn first_allowed(pool: &[u32]) -> (u32, u32) {
    first_found(pool).map_or((0, 0), |found| (found.slot, found.kind))
}

pub fn settle(pool: &mut [u32], budget: u32) -> Answer {
    let mut steps = 0;
    while let Some(found) = first_found(pool) {
        if steps == budget {
            return Answer { code: code::BUDGET_SPENT, number: steps };
        }
        effect(pool, found.slot, &found.around, found.kind);
        steps += 1;
    }
    Answer::good(steps)
}
