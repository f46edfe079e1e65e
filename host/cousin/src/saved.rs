//! The saved form: C, N, then each node before its left subtree before its right.

use crate::batch::{number, refused, wrong_at};
use crate::code;
use crate::pool::{audit, free_from, nodes, read, root, set_header, slots, slots_of, write, Slot, FREE, HEAVIEST, MOST_SLOTS};

/// The most nodes in a row from a root to a leaf, with so many slots.
fn most_levels(c: u32) -> u32 {
    c.div_ceil(2)
}

/// "twice the weight, plus 1 for an inner node"
fn weight_and_sort(node: Slot) -> u32 {
    2 * node.weight + u32::from(node.right != 0)
}

/// The bytes of a number.
#[inline]
fn length(value: u32) -> usize {
    1 + usize::from(value >= 1 << 7) + usize::from(value >= 1 << 14) + usize::from(value >= 1 << 21) + usize::from(value >= 1 << 28)
}

/// The bytes of a sound pool's form: every slot that is not free is in the tree.
fn saved_length(pool: &[u32]) -> usize {
    let c = slots_of(pool);
    let nodes_length: usize = (1..=c)
        .map(|slot| read(pool, slot))
        .filter(|node| node.weight != FREE)
        .map(|node| length(weight_and_sort(node)) + length(node.key))
        .sum();
    length(c) + length(nodes(pool)) + nodes_length
}

/// Writes a number at a place. Gives the place after it.
#[inline]
fn put_number(out: &mut [u8], mut place: usize, mut value: u32) -> usize {
    while value >= 0x80 {
        out[place] = value as u8 | 0x80;
        place += 1;
        value >>= 7;
    }
    out[place] = value as u8;
    place + 1
}

/// Writes a subtree at a place, a node before its left subtree before its right. Gives the place after it.
fn put_tree(out: &mut [u8], mut place: usize, pool: &[u32], mut slot: u32) -> usize {
    loop {
        let node = read(pool, slot);
        place = put_number(out, place, weight_and_sort(node));
        place = put_number(out, place, node.key);
        if node.right == 0 {
            return place;
        }
        place = put_tree(out, place, pool, node.left);
        slot = node.right;
    }
}

/// Refusals in the order 1, 2, 14.
pub fn save(pool: &[u32], out: &mut [u8]) -> u64 {
    let code = audit(pool);
    if code != code::GOOD {
        return refused(code, 0);
    }
    let length = saved_length(pool);
    if out.len() < length {
        return refused(code::OTHER_SIZE, 0);
    }
    let mut place = put_number(out, 0, slots_of(pool));
    place = put_number(out, place, nodes(pool));
    if root(pool) != 0 {
        put_tree(out, place, pool, root(pool));
    }
    length as u64
}

/// Where the next byte comes from.
struct Reader<'a> {
    saved: &'a [u8],
    next: usize,
}

impl Reader<'_> {
    #[inline]
    fn number(&mut self) -> Option<u32> {
        let number = number(self.saved, self.next)?;
        self.next = number.next;
        Some(number.value)
    }

    /// Reads a subtree whose keys lie from `low` to `high`. Gives the sum of weights from the edge above it to each leaf.
    /// `left` are the nodes that may follow. Any fault ends the whole.
    fn subtree(&mut self, low: u32, high: u32, levels: u32, left: &mut u32) -> Option<u32> {
        if levels == 0 || *left == 0 {
            return None;
        }
        *left -= 1;
        let (first, key) = (self.number()?, self.number()?);
        let weight = first / 2;
        if key < low || key > high || weight > HEAVIEST {
            return None;
        }
        if first % 2 == 0 {
            return (weight > 0).then_some(weight);
        }
        if key == high {
            return None; // no leaf key can be greater
        }
        let left_sum = self.subtree(low, key, levels - 1, left)?;
        let right_sum = self.subtree(key + 1, high, levels - 1, left)?;
        (left_sum == right_sum).then_some(left_sum + weight)
    }

    /// Fills slots from `slot` on with the subtree that was checked before. Gives the slot after them.
    fn build(&mut self, pool: &mut [u32], slot: u32) -> Option<u32> {
        let (first, key) = (self.number()?, self.number()?);
        let weight = first / 2;
        if first % 2 == 0 {
            write(pool, slot, Slot { key, left: 0, right: 0, weight });
            return Some(slot + 1);
        }
        let left = slot + 1;
        let right = self.build(pool, left)?;
        write(pool, slot, Slot { key, left, right, weight });
        self.build(pool, right)
    }
}

/// What a form begins with, L, and the place of its first node.
struct Header {
    c: u32,
    n: u32,
    level: u32,
    tree: usize,
}

/// The header of bytes that some sound pool is written as.
fn check(saved: &[u8]) -> Option<Header> {
    let mut reader = Reader { saved, next: 0 };
    let (c, n) = (reader.number()?, reader.number()?);
    if c == 0 || c > MOST_SLOTS as u32 || n > c {
        return None;
    }
    let tree = reader.next;
    let mut level = 0;
    if n > 0 {
        // "The root's is 1": the first number is 2 or 3.
        if !matches!(saved.get(tree), Some(2 | 3)) {
            return None;
        }
        let mut left = n;
        let sum = reader.subtree(0, u32::MAX, most_levels(c), &mut left)?;
        if left != 0 || sum > HEAVIEST + 1 {
            return None;
        }
        level = sum - 1; // the root's weight is in the sum
    }
    (reader.next == saved.len()).then_some(Header { c, n, level, tree })
}

/// The byte at which bytes that no pool is written as go wrong: the first of C, N and "two numbers for each of N nodes" that
/// does not read, else "the count of saved bytes". Looked for after a refusal, as a number's is.
#[cold]
fn form_wrong_at(saved: &[u8]) -> usize {
    let mut reader = Reader { saved, next: 0 };
    let mut whole = || {
        reader.number()?;
        let numbers = 2 * u64::from(reader.number()?);
        (0..numbers).try_for_each(|_| reader.number().map(drop))
    };
    match whole() {
        None => wrong_at(saved, reader.next),
        Some(()) => saved.len(),
    }
}

/// Refusals in the order 1, 13, 14.
pub fn load(pool: &mut [u32], saved: &[u8]) -> u64 {
    let Some(c) = slots(pool.len()) else {
        return refused(code::WRONG_LENGTH, 0);
    };
    let Some(header) = check(saved) else {
        return refused(code::NEVER_WRITTEN, form_wrong_at(saved));
    };
    if header.c != c {
        return refused(code::OTHER_SIZE, 0);
    }
    if header.n > 0 {
        Reader { saved, next: header.tree }.build(pool, 1);
    }
    free_from(pool, header.n + 1, c);
    set_header(pool, u32::from(header.n > 0), header.n, header.level, c);
    u64::from(header.n)
}
