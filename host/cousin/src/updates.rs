//! Search, insert and delete on a sound pool.

use crate::code;
use crate::pool::{
    free_slots, give_slot, level, nodes, put, read, root, set_level, set_root, take_slot, word, write, Slot, KEY, LEFT, RIGHT, WEIGHT,
};
use crate::steps::Answer;

/// Where search ends: the leaf and its parent, each 0 if there is none.
struct Place {
    parent: u32,
    leaf: u32,
}

fn find(pool: &[u32], key: u32) -> Place {
    let mut parent = 0;
    let mut slot = root(pool);
    while slot != 0 {
        let node = read(pool, slot);
        if node.right == 0 {
            break;
        }
        parent = slot;
        slot = if key <= node.key { node.left } else { node.right };
    }
    Place { parent, leaf: slot }
}

fn holds(pool: &[u32], leaf: u32, key: u32) -> bool {
    leaf != 0 && word(pool, leaf, KEY) == key
}

pub fn search(pool: &[u32], key: u32) -> Answer {
    let leaf = find(pool, key).leaf;
    if holds(pool, leaf, key) {
        Answer::good(leaf)
    } else {
        Answer::refused(code::KEY_ABSENT)
    }
}

pub fn insert(pool: &mut [u32], key: u32) -> Answer {
    let leaf = find(pool, key).leaf;
    if holds(pool, leaf, key) {
        return Answer::refused(code::KEY_PRESENT);
    }
    let needed = if leaf == 0 { 1 } else { 2 };
    if free_slots(pool) < needed {
        return Answer::refused(code::NO_ROOM);
    }
    Answer::good(if leaf == 0 { insert_first(pool, key) } else { insert_beside(pool, leaf, key) })
}

fn leaf_of(key: u32) -> Slot {
    Slot { key, left: 0, right: 0, weight: 1 }
}

fn insert_first(pool: &mut [u32], key: u32) -> u32 {
    let slot = take_slot(pool);
    write(pool, slot, leaf_of(key));
    set_root(pool, slot);
    slot
}

fn insert_beside(pool: &mut [u32], leaf: u32, key: u32) -> u32 {
    let old = read(pool, leaf);
    let left = take_slot(pool);
    let right = take_slot(pool);
    let router = old.key.min(key);
    write(pool, left, leaf_of(router));
    write(pool, right, leaf_of(old.key.max(key)));
    let weight = if leaf == root(pool) {
        set_level(pool, 1);
        1
    } else {
        old.weight - 1
    };
    write(pool, leaf, Slot { key: router, left, right, weight });
    if router == key {
        left
    } else {
        right
    }
}

pub fn delete(pool: &mut [u32], key: u32) -> Answer {
    let Place { parent, leaf } = find(pool, key);
    if !holds(pool, leaf, key) {
        return Answer::refused(code::KEY_ABSENT);
    }
    if parent == 0 {
        set_root(pool, 0);
        give_slot(pool, leaf);
    } else {
        delete_under(pool, parent, leaf);
    }
    Answer::good(nodes(pool).div_ceil(2))
}

fn delete_under(pool: &mut [u32], parent: u32, leaf: u32) {
    let above = read(pool, parent);
    let sibling = if above.left == leaf { above.right } else { above.left };
    let kept = read(pool, sibling);
    let weight = if parent == root(pool) {
        set_level(pool, level(pool) - kept.weight);
        1
    } else {
        above.weight + kept.weight
    };
    put(pool, parent, KEY, kept.key);
    put(pool, parent, LEFT, kept.left);
    put(pool, parent, RIGHT, kept.right);
    put(pool, parent, WEIGHT, weight);
    give_slot(pool, leaf);
    give_slot(pool, sibling);
}
