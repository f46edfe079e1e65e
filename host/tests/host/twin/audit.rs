//! The audit rules, bullet by bullet, over arrays of marks; and the tree that sound words hold.

use super::{edge, inner, leaf, Edge, Node, Set, FREE, MOST_SLOTS};

/// C, "so its length is 4 + 4C".
pub fn slots(len: usize) -> Option<usize> {
    let c = len.checked_sub(4)? / 4;
    ((1..=MOST_SLOTS).contains(&c) && len == 4 + 4 * c).then_some(c)
}

pub fn audit(words: &[u32]) -> u32 {
    match slots(words.len()) {
        None => 1,
        Some(c) if Look::at(words, c).is_some() => 0,
        Some(_) => 2,
    }
}

/// The set that the words hold, or the audit's code.
pub fn read(words: &[u32]) -> Result<Set, u32> {
    let c = slots(words.len()).ok_or(1u32)?;
    let look = Look::at(words, c).ok_or(2u32)?;
    let tree = (words[0] != 0).then(|| read_edge(words, words[0]));
    let free = look.chain.iter().rev().map(|&s| s as u32).collect();
    Ok(Set { slots: c, tree, free })
}

fn four(words: &[u32], slot: usize) -> [u32; 4] {
    [words[4 * slot], words[4 * slot + 1], words[4 * slot + 2], words[4 * slot + 3]]
}

fn read_edge(words: &[u32], slot: u32) -> Edge {
    let [key, left, right, weight] = four(words, slot as usize);
    let to: Node = if left == 0 { leaf(slot, key) } else { inner(slot, key, read_edge(words, left), read_edge(words, right)) };
    edge(weight, to)
}

/// Slots found in the tree, each after its parent, and on the free chain, head first.
struct Look<'a> {
    words: &'a [u32],
    c: usize,
    tree: Vec<usize>,
    chain: Vec<usize>,
}

impl<'a> Look<'a> {
    /// Some, exactly if every rule holds.
    fn at(words: &'a [u32], c: usize) -> Option<Look<'a>> {
        let mut look = Look { words, c, tree: vec![], chain: vec![] };
        let mut marked = vec![false; c + 1];
        let kept = look.mark_tree(&mut marked)
            && look.mark_chain(&mut marked)
            && marked[1..].iter().all(|&m| m)
            && words[2] as usize == look.tree.len()
            && look.order()
            && look.weights()
            // 02 (v), of the fourth header word: "The audit checks it against the weights".
            && look.sums() == Some(u64::from(words[3]));
        kept.then_some(look)
    }

    fn slot(&self, slot: usize) -> [u32; 4] {
        four(self.words, slot)
    }

    /// Marks a slot; false if it is none or has its mark.
    fn mark(&self, marked: &mut [bool], slot: u32) -> bool {
        let slot = slot as usize;
        1 <= slot && slot <= self.c && !std::mem::replace(&mut marked[slot], true)
    }

    /// "in the tree exactly once"; "A leaf has left and right 0; an inner node has both from 1 to C."
    fn mark_tree(&mut self, marked: &mut [bool]) -> bool {
        let mut ahead = vec![self.words[0]];
        ahead.retain(|&root| root != 0);
        while let Some(slot) = ahead.pop() {
            if !self.mark(marked, slot) {
                return false;
            }
            self.tree.push(slot as usize);
            let [_, left, right, _] = self.slot(slot as usize);
            if (left == 0) != (right == 0) {
                return false;
            }
            if left != 0 {
                ahead.extend([right, left]);
            }
        }
        true
    }

    /// "on the free chain exactly once, never both"; "A free slot is 0, next free slot (0 at the end), 0,
    /// 4,294,967,295."
    fn mark_chain(&mut self, marked: &mut [bool]) -> bool {
        let mut slot = self.words[1];
        while slot != 0 {
            if !self.mark(marked, slot) {
                return false;
            }
            self.chain.push(slot as usize);
            let [zero, next, none, weight] = self.slot(slot as usize);
            if (zero, none, weight) != (0, 0, FREE) {
                return false;
            }
            slot = next;
        }
        true
    }

    /// "Leaf keys in a left subtree are at most the router; leaf keys in a right subtree are greater."
    fn order(&self) -> bool {
        let mut least = vec![0; self.c + 1];
        let mut greatest = vec![0; self.c + 1];
        self.tree.iter().rev().all(|&slot| {
            let [key, left, right, _] = self.slot(slot);
            let (left, right) = (left as usize, right as usize);
            (least[slot], greatest[slot]) = if left == 0 { (key, key) } else { (least[left], greatest[right]) };
            left == 0 || greatest[left] <= key && key < least[right]
        })
    }

    /// "Weights are 0 to 255. The root's is 1 and counts in nothing. A leaf that is not the root has at least 1."
    fn weights(&self) -> bool {
        self.tree.iter().all(|&slot| {
            let [_, left, _, weight] = self.slot(slot);
            if slot as u32 == self.words[0] {
                weight == 1
            } else {
                weight <= 255 && (left != 0 || weight >= 1)
            }
        })
    }

    /// "From root to leaf the weights, root's left out, add up to the same number L for every leaf, and L is at most
    /// 255. L is 0 for an empty tree or one leaf."
    fn sums(&self) -> Option<u64> {
        let mut sum = vec![0u64; self.c + 1];
        let mut levels = vec![];
        for &slot in &self.tree {
            let [_, left, right, _] = self.slot(slot);
            if left == 0 {
                levels.push(sum[slot]);
                continue;
            }
            for child in [left as usize, right as usize] {
                sum[child] = sum[slot] + u64::from(self.slot(child)[3]);
            }
        }
        let l = levels.first().copied().unwrap_or(0);
        (l <= 255 && levels.iter().all(|&level| level == l)).then_some(l)
    }
}
