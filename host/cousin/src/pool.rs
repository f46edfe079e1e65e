//! The pool as words: where a slot lies, prepare, the free chain, the audit.

use crate::code;

pub const MOST_SLOTS: usize = 16_383;
pub const HEAVIEST: u32 = 255;
/// The weight word of a free slot.
pub const FREE: u32 = u32::MAX;

/// Words of a slot; those of the header lie like a slot 0's.
pub const KEY: usize = 0;
pub const LEFT: usize = 1;
pub const RIGHT: usize = 2;
pub const WEIGHT: usize = 3;
const WORDS: usize = 4;

const ROOT: usize = 0;
const FIRST_FREE: usize = 1;
const NODES: usize = 2;
const LEVEL: usize = 3;

#[inline]
pub fn at(slot: u32, part: usize) -> usize {
    slot as usize * WORDS + part
}

#[inline]
pub fn word(pool: &[u32], slot: u32, part: usize) -> u32 {
    pool[at(slot, part)]
}

#[inline]
pub fn put(pool: &mut [u32], slot: u32, part: usize, value: u32) {
    pool[at(slot, part)] = value;
}

/// The four words of a slot, read at once.
#[derive(Clone, Copy, PartialEq)]
pub struct Slot {
    pub key: u32,
    pub left: u32,
    pub right: u32,
    pub weight: u32,
}

impl Slot {
    pub fn is_leaf(self) -> bool {
        self.left == 0 && self.right == 0
    }

    /// The child on a side, LEFT or RIGHT.
    pub fn child(self, side: usize) -> u32 {
        if side == LEFT {
            self.left
        } else {
            self.right
        }
    }
}

#[inline]
pub fn read(pool: &[u32], slot: u32) -> Slot {
    let words = &pool[at(slot, 0)..at(slot, WORDS)];
    Slot { key: words[KEY], left: words[LEFT], right: words[RIGHT], weight: words[WEIGHT] }
}

#[inline]
pub fn write(pool: &mut [u32], slot: u32, words: Slot) {
    pool[at(slot, 0)..at(slot, WORDS)].copy_from_slice(&[words.key, words.left, words.right, words.weight]);
}

pub fn root(pool: &[u32]) -> u32 {
    pool[ROOT]
}

pub fn set_root(pool: &mut [u32], slot: u32) {
    pool[ROOT] = slot;
}

/// N, the slots in the tree.
pub fn nodes(pool: &[u32]) -> u32 {
    pool[NODES]
}

/// "Keep L in the fourth header word": of a sound pool it is L.
pub fn level(pool: &[u32]) -> u32 {
    pool[LEVEL]
}

pub fn set_level(pool: &mut [u32], level: u32) {
    pool[LEVEL] = level;
}

/// C, if the length is 4 + 4C with C from 1 to 16,383.
pub fn slots(words: usize) -> Option<u32> {
    let c = words / WORDS;
    (words % WORDS == 0 && (2..=MOST_SLOTS + 1).contains(&c)).then(|| c as u32 - 1)
}

/// C of a pool that passed the audit.
pub fn slots_of(pool: &[u32]) -> u32 {
    (pool.len() / WORDS) as u32 - 1
}

pub fn free_slots(pool: &[u32]) -> u32 {
    slots_of(pool) - nodes(pool)
}

fn free_slot(next: u32) -> Slot {
    Slot { key: 0, left: next, right: 0, weight: FREE }
}

pub fn prepare(pool: &mut [u32]) -> u32 {
    let Some(c) = slots(pool.len()) else {
        return code::WRONG_LENGTH;
    };
    free_from(pool, 1, c);
    set_header(pool, 0, 0, 0, c);
    code::GOOD
}

/// Header of a tree in slots 1 to `nodes`, the rest of the C slots free.
pub fn set_header(pool: &mut [u32], root: u32, nodes: u32, level: u32, c: u32) {
    let first_free = if nodes < c { nodes + 1 } else { 0 };
    pool[..WORDS].copy_from_slice(&[root, first_free, nodes, level]);
}

/// Makes the slots from `first` on free, chained upwards.
pub fn free_from(pool: &mut [u32], first: u32, c: u32) {
    for slot in first..=c {
        let next = if slot < c { slot + 1 } else { 0 };
        write(pool, slot, free_slot(next));
    }
}

/// "Taking a slot takes the chain's head". Some slot must be free.
pub fn take_slot(pool: &mut [u32]) -> u32 {
    let slot = pool[FIRST_FREE];
    pool[FIRST_FREE] = word(pool, slot, LEFT);
    pool[NODES] += 1;
    slot
}

/// "freeing puts a slot at the head".
pub fn give_slot(pool: &mut [u32], slot: u32) {
    write(pool, slot, free_slot(pool[FIRST_FREE]));
    pool[FIRST_FREE] = slot;
    pool[NODES] -= 1;
}

pub fn audit(pool: &[u32]) -> u32 {
    match slots(pool.len()) {
        None => code::WRONG_LENGTH,
        Some(c) if sound(pool, c) => code::GOOD,
        Some(_) => code::RULES_BROKEN,
    }
}

/// The audit rules without marks: in an ordered tree no slot stands twice, a free slot's weight keeps it out of the
/// tree, and a chain that ends after exactly C - N slots repeats none.
fn sound(pool: &[u32], c: u32) -> bool {
    let n = nodes(pool);
    n <= c && tree_sound(pool, c, n) && free_chain_sound(pool, c, c - n)
}

fn tree_sound(pool: &[u32], c: u32, n: u32) -> bool {
    let root = root(pool);
    if n == 0 || root == 0 {
        return n == 0 && root == 0 && level(pool) == 0;
    }
    // A sound tree of C slots is at most (C + 1) / 2 deep. The root's weight, 1, is in its sum and not in L.
    match walk(pool, root, 0, u32::MAX, c.div_ceil(2)) {
        Some(tree) => tree.nodes == n && word(pool, root, WEIGHT) == 1 && tree.sum <= HEAVIEST + 1 && level(pool) == tree.sum - 1,
        None => false,
    }
}

/// A subtree: its nodes, and the sum of weights from the edge above it to each leaf.
struct Walked {
    nodes: u32,
    sum: u32,
}

/// Any fault ends the whole walk, so that a damaged pool costs no more than a sound one.
fn walk(pool: &[u32], slot: u32, low: u32, high: u32, allowance: u32) -> Option<Walked> {
    if slot == 0 || slot > slots_of(pool) || allowance == 0 {
        return None;
    }
    let node = read(pool, slot);
    if node.key < low || node.key > high || node.weight > HEAVIEST {
        return None;
    }
    if node.is_leaf() {
        return (node.weight > 0).then_some(Walked { nodes: 1, sum: node.weight });
    }
    if node.key == high {
        return None; // no leaf key can be greater
    }
    let left = walk(pool, node.left, low, node.key, allowance - 1)?;
    let right = walk(pool, node.right, node.key + 1, high, allowance - 1)?;
    (left.sum == right.sum).then_some(Walked { nodes: left.nodes + right.nodes + 1, sum: left.sum + node.weight })
}

fn free_chain_sound(pool: &[u32], c: u32, count: u32) -> bool {
    let mut slot = pool[FIRST_FREE];
    for _ in 0..count {
        if slot == 0 || slot > c {
            return false;
        }
        let next = word(pool, slot, LEFT);
        if read(pool, slot) != free_slot(next) {
            return false;
        }
        slot = next;
    }
    slot == 0
}
