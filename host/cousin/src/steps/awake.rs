//! Settle by marks: after its first scan it looks only where a step can have allowed another one. It takes the steps that `settle` takes.
//! No call of the batch uses it: as the library's, `settle` looks at every slot for each step.

use super::{child, effect, is_inner, too_tall, Answer, Around, Found, KINDS};
use crate::code;
use crate::pool::{read, root, slots_of, word, Slot, KEY, LEFT, MOST_SLOTS, RIGHT};

/// Slots of a block, which share a mark, and of a group of blocks, which share another.
const BLOCK: u32 = 8;
const GROUP: u32 = 32 * BLOCK;
const BLOCKS: usize = (MOST_SLOTS + 1) / BLOCK as usize;
const GROUPS: usize = (MOST_SLOTS + 1) / GROUP as usize;

/// Where settle has to look: a slot of a block without a mark allows no step, and a group without one has no marked block.
struct Awake {
    blocks: [u8; BLOCKS],
    groups: [u8; GROUPS],
}

impl Awake {
    fn everywhere(pool: &[u32]) -> Awake {
        let mut awake = Awake { blocks: [0; BLOCKS], groups: [0; GROUPS] };
        let last = slots_of(pool);
        awake.blocks[..=(last / BLOCK) as usize].fill(1);
        awake.groups[..=(last / GROUP) as usize].fill(1);
        awake
    }

    #[inline]
    fn wake(&mut self, slot: u32) {
        self.blocks[(slot / BLOCK) as usize] = 1;
        self.groups[(slot / GROUP) as usize] = 1;
    }

    /// "the lowest slot with an allowed kind, and there the lowest kind". Where it finds none, the marks go.
    #[inline(always)]
    fn first_found(&mut self, pool: &[u32]) -> Option<Found> {
        let last = slots_of(pool);
        for group in 0..=(last / GROUP) as usize {
            if self.groups[group] == 0 {
                continue;
            }
            let first = group * BLOCKS / GROUPS;
            for block in first..(first + BLOCKS / GROUPS).min((last / BLOCK) as usize + 1) {
                if self.blocks[block] == 0 {
                    continue;
                }
                let found = first_in(pool, block as u32);
                if found.is_some() {
                    return found;
                }
                self.blocks[block] = 0;
            }
            self.groups[group] = 0;
        }
        None
    }

    /// Marks, before the step, what it can newly allow outside v's own block, which keeps its mark: at the slots that get another place or
    /// other children, and above v, where what the nodes there see of v is no longer the same.
    #[inline(always)]
    fn wake_for(&mut self, pool: &[u32], found: &Found) {
        let Found { slot, kind, around } = found;
        let Around { v, left, right } = around;
        match kind {
            1 => {
                self.wake(v.left);
                self.wake(v.right);
            }
            2 | 8 => self.wake(v.left),
            3 | 7 => self.wake(v.right),
            4 => {
                self.wake(v.left);
                self.wake(left.words.right);
            }
            5 => {
                self.wake(v.right);
                self.wake(right.words.left);
            }
            _ => {}
        }
        if !(2..=5).contains(kind) {
            self.wake_above(pool, *slot, *v, weight_after(pool, *slot, *v, *kind));
        }
    }

    /// The parent of v sees whether v is red or overweighted, and what is below a red v; the parent of that one, whether v is red.
    fn wake_above(&mut self, pool: &[u32], slot: u32, v: Slot, after: u32) {
        if v.weight == 0 || after == 0 || (v.weight > 1) != (after > 1) {
            let Above { parent, grandparent } = above(pool, slot, v.key);
            self.wake(parent);
            if (v.weight == 0) != (after == 0) {
                self.wake(grandparent);
            }
        }
    }
}

/// The weight word of v after a step of kind 1, 6, 7 or 8.
fn weight_after(pool: &[u32], slot: u32, v: Slot, kind: u32) -> u32 {
    match kind {
        1 if slot != root(pool) => v.weight - 1,
        6 if slot != root(pool) => v.weight + 1,
        _ => v.weight,
    }
}

/// The parent and the parent's parent, each 0 where there is none.
struct Above {
    parent: u32,
    grandparent: u32,
}

/// By the way down to an inner node's router, which passes through the node.
fn above(pool: &[u32], slot: u32, router: u32) -> Above {
    let mut above = Above { parent: 0, grandparent: 0 };
    let mut at = root(pool);
    for _ in 0..slots_of(pool) {
        if at == slot {
            break;
        }
        above = Above { parent: at, grandparent: above.parent };
        at = child(pool, at, if router <= word(pool, at, KEY) { LEFT } else { RIGHT });
    }
    above
}

/// The first allowed step of a block.
#[inline(always)]
fn first_in(pool: &[u32], block: u32) -> Option<Found> {
    let first = block * BLOCK;
    for slot in first.max(1)..=(first + BLOCK - 1).min(slots_of(pool)) {
        let v = read(pool, slot);
        if !is_inner(v) {
            continue;
        }
        let around = Around::read(pool, v);
        for kind in 1..=KINDS {
            if around.condition(kind) && !too_tall(pool, slot, kind) {
                return Some(Found { slot, kind, around });
            }
        }
    }
    None
}

/// The steps that `settle` takes, and its answer.
pub fn settle_awake(pool: &mut [u32], budget: u32) -> Answer {
    let mut awake = Awake::everywhere(pool);
    let mut steps = 0;
    while let Some(found) = awake.first_found(pool) {
        if steps == budget {
            return Answer { code: code::BUDGET_SPENT, number: steps };
        }
        awake.wake_for(pool, &found);
        effect(pool, found.slot, &found.around, found.kind);
        steps += 1;
    }
    Answer::good(steps)
}

#[cfg(test)]
mod tests {
    use super::settle_awake;
    use crate::steps::settle;
    use crate::{audit, prepare};

    /// Inserts and deletes in turn, and between them settles of a few steps or to the end: both ways do the same.
    #[test]
    fn as_every_slot_looked_at() {
        let mut random = 88_172_645_463_325_252_u64;
        let mut below = |end: u32| {
            random ^= random << 13;
            random ^= random >> 7;
            random ^= random << 17;
            (random >> 16) as u32 % end
        };
        for slots in [7, 63, 255, 1023] {
            let mut pool = vec![0; 4 + 4 * slots];
            prepare(&mut pool);
            for _ in 0..300 {
                for _ in 0..below(slots as u32 / 4 + 2) {
                    let (operation, key) = (2 + below(2) as u8, below(2 * slots as u32));
                    let bytes = [operation, 0x80 | (key % 128) as u8, (key / 128) as u8];
                    let bytes = if key < 128 { vec![operation, key as u8] } else { bytes.to_vec() };
                    assert_eq!(crate::batch(&mut pool, &bytes, &mut [0; 2]) >> 32, 0);
                }
                let budget = if below(2) == 0 { u32::MAX } else { below(9) };
                let mut other = pool.clone();
                let (one, two) = (settle(&mut pool, budget), settle_awake(&mut other, budget));
                assert_eq!((one.code, one.number), (two.code, two.number));
                assert!(pool == other && audit(&pool) == 0);
            }
        }
    }
}
