//! The next key, how many keys a span has, and deleting them; on a sound pool.

use crate::pool::{read, root};
use crate::updates::delete;

/// The smallest key at or above one, by one descent: where search ends, else the least key right of the last turn to the left.
pub fn at_or_above(pool: &[u32], key: u32) -> Option<u32> {
    let mut above = 0;
    let mut slot = root(pool);
    while slot != 0 {
        let node = read(pool, slot);
        slot = if node.right == 0 {
            if node.key >= key {
                return Some(node.key);
            }
            // All that is there lies above the key, so that the way leads down its left side.
            std::mem::take(&mut above)
        } else if key > node.key {
            node.right
        } else {
            above = node.right;
            node.left
        };
    }
    None
}

/// "the number of keys from a to b": no side is entered that can have no key of the span.
pub fn count_span(pool: &[u32], first: u32, last: u32) -> u32 {
    match root(pool) {
        0 => 0,
        root => count_under(pool, root, first, last),
    }
}

fn count_under(pool: &[u32], slot: u32, first: u32, last: u32) -> u32 {
    let node = read(pool, slot);
    if node.right == 0 {
        return u32::from(first <= node.key && node.key <= last);
    }
    let left = if first <= node.key { count_under(pool, node.left, first, last) } else { 0 };
    let right = if node.key < last { count_under(pool, node.right, first, last) } else { 0 };
    left + right
}

/// The smallest key of a span; after the last number there is none to begin with.
fn first_of(pool: &[u32], first: Option<u32>, last: u32) -> Option<u32> {
    let from = first.filter(|&first| first <= last)?;
    at_or_above(pool, from).filter(|&key| key <= last)
}

/// "delete all keys from a to b, smallest first": each is found by one descent and deleted by another. How many went.
pub fn delete_span(pool: &mut [u32], first: u32, last: u32) -> u32 {
    let mut next = Some(first);
    let mut gone = 0;
    while let Some(key) = first_of(pool, next, last) {
        delete(pool, key);
        gone += 1;
        next = key.checked_add(1);
    }
    gone
}
