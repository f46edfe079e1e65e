//! The saved form of document 02: "C, N, then each node from the root, node before its left subtree before its right".

use super::audit::slots;
use super::bytes::Numbers;
use super::{audit, edge, inner, leaf, read, write_number, Answer, Edge, Set, MOST_SLOTS};

impl Set {
    pub fn saved(&self) -> Vec<u8> {
        let mut numbers = vec![self.slots as u32, self.nodes()];
        self.tree.iter().for_each(|root| add_nodes(root, &mut numbers));
        let mut bytes = vec![];
        numbers.into_iter().for_each(|n| write_number(n, 0, &mut bytes));
        bytes
    }

    /// The set that is written as these bytes, its slots numbered from 1 on; or the byte at which they go wrong.
    fn restored(saved: &[u8]) -> Result<Set, usize> {
        let Numbers { values, wrong_at, .. } = Numbers::of(saved);
        // "reads C, N and then two numbers for each of N nodes; its 13 gives the place of the first bad number"
        let whole = values.get(1).map_or(2, |&n| 2 + 2 * n as usize);
        let form = values.get(..whole).ok_or(wrong_at)?;
        // "the count of saved bytes where every number reads but no writer produces the whole": a writer takes what passes
        // the audit, and writes it so.
        let written = |set: &Set| audit(&set.words()) == 0 && set.saved() == saved;
        Set::understood(form).filter(written).ok_or(saved.len())
    }

    /// What the numbers seem to hold. It asks only what it needs to make a set.
    fn understood(form: &[u32]) -> Option<Set> {
        let (c, nodes) = (form[0], &form[2..]);
        let slots = c as usize;
        if slots == 0 || slots > MOST_SLOTS {
            return None;
        }
        let mut count = 0;
        let tree = if nodes.is_empty() { None } else { Some(subtree(nodes, &mut count)?) };
        // "chains the rest upwards"; the head is last here
        let free = (count + 1..=c).rev().collect();
        (count <= c).then_some(Set { slots, tree, free })
    }
}

/// "twice the weight, plus 1 for an inner node; then the key or router"
fn add_nodes(e: &Edge, numbers: &mut Vec<u32>) {
    let is_inner = u32::from(e.to.below.is_some());
    numbers.extend([2 * e.weight + is_inner, e.to.key]);
    e.to.edges().iter().for_each(|below| add_nodes(below, numbers));
}

/// The node after `count` others, with all that is below it. It counts on, to no more than any pool has.
fn subtree(nodes: &[u32], count: &mut u32) -> Option<Edge> {
    let node = nodes.chunks(2).nth(*count as usize)?;
    *count += 1;
    let slot = *count;
    if slot as usize > MOST_SLOTS {
        return None;
    }
    let (weight, key) = (node[0] / 2, node[1]);
    if node[0] % 2 == 0 {
        return Some(edge(weight, leaf(slot, key)));
    }
    let left = subtree(nodes, count)?;
    let right = subtree(nodes, count)?;
    Some(edge(weight, inner(slot, key, left, right)))
}

/// Save on words.
pub fn save(words: &[u32], out: &mut [u8]) -> Answer {
    let set = match read(words) {
        Ok(set) => set,
        Err(code) => return (code, 0),
    };
    let bytes = set.saved();
    if out.len() < bytes.len() {
        return (14, 0);
    }
    out[..bytes.len()].copy_from_slice(&bytes);
    (0, bytes.len() as u32)
}

/// Load on words.
pub fn load(words: &mut [u32], saved: &[u8]) -> Answer {
    let Some(c) = slots(words.len()) else {
        return (1, 0);
    };
    let set = match Set::restored(saved) {
        Ok(set) => set,
        Err(byte) => return (13, place(byte)),
    };
    if set.slots != c {
        return (14, 0);
    }
    words.copy_from_slice(&set.words());
    (0, set.nodes())
}

/// A byte's place as a number of 32 bits, the greatest for those past it.
fn place(byte: usize) -> u32 {
    u32::try_from(byte).unwrap_or(u32::MAX)
}
