//! How a pool lies in its words. Only this file knows how many headers there are, how many words a slot takes, and how many
//! bytes a saved set can take.

const HEADER_WORDS: usize = 4;
const SLOT_WORDS: usize = 4;
/// C and N: two numbers below 16,384.
const SAVED_HEAD_BYTES: usize = 2 + 2;
/// Twice the weight, and 1 for an inner node: below 16,384. Then the key or router: 32 bits.
const SAVED_NODE_BYTES: usize = 2 + 5;
/// The largest C.
pub(crate) const MOST_SLOTS: usize = 16_383;

/// The words of a pool of `slots` slots.
pub(crate) const fn words_for(slots: usize) -> usize {
    HEADER_WORDS + SLOT_WORDS * possible(slots)
}

/// The most bytes of a set saved from a pool of `slots` slots.
pub(crate) const fn saved_bytes_for(slots: usize) -> usize {
    saved_bytes(possible(slots))
}

/// The most bytes of a saved set of `nodes` nodes.
pub(crate) const fn saved_bytes(nodes: usize) -> usize {
    SAVED_HEAD_BYTES + SAVED_NODE_BYTES * nodes
}

const fn possible(slots: usize) -> usize {
    assert!(slots >= 1 && slots <= MOST_SLOTS, "the number of slots is not from 1 to Pool::MOST_SLOTS");
    slots
}

/// The slots of a pool of so many words; 0 where that is no pool's length.
pub(crate) const fn slots_in(words: usize) -> usize {
    words.saturating_sub(HEADER_WORDS) / SLOT_WORDS
}
