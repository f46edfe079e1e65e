//! Request (vi): "Kinds 4 and 5 should write only words whose value changes [..] Answers and pool words afterwards are as they are now." Six
//! words change, and here is which, and to what: worked by hand, and over random trees, by a step command and by settle. A word written with
//! the value that it had cannot be seen here; `host/accesses` counts the writes themselves.

use crate::pair::{Pair, Seen};
use crate::pools::{grown, some_keys, SHAPES, WEIGHTS};
use crate::random::{compared, share};
use crate::rng::Rng;
use crate::twin::{edge, inner, leaf, Command};
use crate::worked::{below_the_root, rotation_case};
use Command::{Settle, Step};

// Words of a slot.
const KEY: usize = 0;
const LEFT: usize = 1;
const RIGHT: usize = 2;
const WEIGHT: usize = 3;

/// A place among the words, and its value there afterwards.
type Written = (usize, u32);

/// Where the words of v, its red child u, u's red child t, and v's other child r begin; the side of u, and the other.
struct Places {
    v: usize,
    u: usize,
    t: usize,
    r: usize,
    side: usize,
    away: usize,
}

impl Places {
    /// Of kind 4 or 5 at a slot where it is allowed.
    fn of(words: &[u32], slot: u32, kind: u32) -> Places {
        let (side, away) = if kind == 4 { (LEFT, RIGHT) } else { (RIGHT, LEFT) };
        let below = |parent: usize, side: usize| 4 * words[parent + side] as usize;
        let v = 4 * slot as usize;
        let u = below(v, side);
        Places { v, u, t: below(u, away), r: below(v, away), side, away }
    }

    /// v's router and its child away from u; u's child that was t; t's router and both its children.
    fn six(&self, words: &[u32]) -> [Written; 6] {
        let Places { v, u, t, side, away, .. } = *self;
        [
            (v + KEY, words[t + KEY]),
            (v + away, words[u + away]),
            (u + away, words[t + side]),
            (t + KEY, words[v + KEY]),
            (t + side, words[t + away]),
            (t + away, words[v + away]),
        ]
    }
}

/// What differs, and how it is afterwards.
fn changed(before: &[u32], after: &[u32]) -> Vec<Written> {
    (0..).zip(before.iter().zip(after)).filter(|(_, (old, new))| old != new).map(|(place, (_, &new))| (place, new)).collect()
}

/// One command, which is kind 4 or 5 at a slot, or a settle that takes it: the answer and all words are as the twin says (`Pair::run`), and
/// the six words differ, and no other.
fn changes_six(pair: &Pair, slot: u32, kind: u32, command: Command, seen: &mut Seen) -> Pair {
    let mut after = pair.clone();
    let (code, number) = after.run_seen(command, seen);
    let taken = if matches!(command, Settle(_)) { 1 } else { kind };
    assert!(number == taken && (code == 0 || code == 12), "{command:?} on {:?}", pair.words);
    let mut six = Places::of(&pair.words, slot, kind).six(&pair.words);
    six.sort();
    assert_eq!(changed(&pair.words, &after.words), six, "kind {kind} at slot {slot} by {command:?} on {:?}", pair.words);
    after
}

/// v in slot 2 under the root, u in slot 3, t in slot 4 over the leaves 5 and 6, u's other child 7, r 8. Leaf keys are 1 to 4 from the left,
/// and 5 beside v. Kind 4: the leaves from the left are 7, 5, 6, 8; kind 5: 8, 5, 6, 7.
#[test]
fn six_words_by_hand() {
    let mut pair = rotation_case(true, false, 1);
    let before = [[3, 3, 8, 1], [1, 7, 4, 0], [2, 5, 6, 0]];
    assert_eq!([pair.slot(2), pair.slot(3), pair.slot(4)], before);
    assert_eq!(pair.run(Step(2, 4)), (0, 4));
    let after = [[2, 3, 4, 1], [1, 7, 5, 0], [3, 6, 8, 0]];
    assert_eq!([pair.slot(2), pair.slot(3), pair.slot(4)], after);
    assert_eq!(changed(before.as_flattened(), after.as_flattened()), [(0, 2), (2, 4), (6, 5), (8, 3), (9, 6), (10, 8)]);

    let mut pair = rotation_case(false, true, 1);
    let before = [[1, 8, 3, 1], [3, 4, 7, 0], [2, 5, 6, 0]];
    assert_eq!([pair.slot(2), pair.slot(3), pair.slot(4)], before);
    assert_eq!(pair.run(Step(2, 5)), (0, 5));
    let after = [[2, 4, 3, 1], [3, 6, 7, 0], [1, 8, 5, 0]];
    assert_eq!([pair.slot(2), pair.slot(3), pair.slot(4)], after);
    assert_eq!(changed(before.as_flattened(), after.as_flattened()), [(0, 2), (1, 4), (5, 6), (8, 1), (9, 8), (10, 5)]);
}

/// At the root, with every leaf of one weight up to 255, and below it, with v of any weight but 0. Settle takes it where v's slot is first.
#[test]
fn six_words_whatever_the_weights() {
    let mut seen = Seen::default();
    for level in [1, 2, 9, 254, 255] {
        let heavy = |slot| edge(level, leaf(slot, 0));
        let t = || edge(0, inner(3, 0, heavy(4), heavy(5)));
        let with_kind_4 = below_the_root(edge(0, inner(2, 0, heavy(6), t())), heavy(7));
        let with_kind_5 = below_the_root(heavy(7), edge(0, inner(2, 0, t(), heavy(6))));
        for (pair, kind) in [(with_kind_4, 4), (with_kind_5, 5)] {
            changes_six(&pair, 1, kind, Step(1, kind), &mut seen);
            changes_six(&pair, 1, kind, Settle(1), &mut seen);
        }
    }
    for p in [1, 2, 3, 100, 254] {
        changes_six(&rotation_case(true, false, p), 2, 4, Step(2, 4), &mut seen);
        changes_six(&rotation_case(false, true, p), 2, 5, Step(2, 5), &mut seen);
    }
}

/// How often a step of these kinds was met: 4, then 5.
#[derive(Debug, Default)]
struct Met {
    steps: [u64; 2],
    by_settle: [u64; 2],
    at_root: [u64; 2],
    left_below: [u64; 2],
    right_below: [u64; 2],
    v_overweighted: [u64; 2],
    /// Of r, u's other child and t's children: an inner node, and one that is overweighted.
    inner_around: [[u64; 2]; 4],
    overweighted_around: [[u64; 2]; 4],
}

impl Met {
    fn add(&mut self, words: &[u32], slot: u32, kind: u32) {
        let Places { v, u, t, r, side, .. } = Places::of(words, slot, kind);
        let below = |parent: usize, side: usize| 4 * words[parent + side] as usize;
        let i = kind as usize - 4;
        let hangs_on = |side: usize| words[4..].chunks(4).any(|parent| parent[WEIGHT] != u32::MAX && parent[side] == slot);
        self.steps[i] += 1;
        self.at_root[i] += u64::from(words[0] == slot);
        self.left_below[i] += u64::from(hangs_on(LEFT));
        self.right_below[i] += u64::from(hangs_on(RIGHT));
        self.v_overweighted[i] += u64::from(words[v + WEIGHT] > 1);
        for (place, node) in [r, below(u, side), below(t, LEFT), below(t, RIGHT)].into_iter().enumerate() {
            self.inner_around[place][i] += u64::from(words[node + LEFT] != 0);
            self.overweighted_around[place][i] += u64::from(words[node + WEIGHT] > 1);
        }
    }

    fn each_met(&self, times: u64) -> bool {
        let single = [self.steps, self.by_settle, self.at_root, self.left_below, self.right_below, self.v_overweighted];
        [&single[..], &self.inner_around, &self.overweighted_around].concat().as_flattened().iter().all(|&met| met >= times)
    }

    /// Every step of these kinds that a pool allows, and settle where it takes one; and settle where it takes more.
    fn all_of(&mut self, pair: &Pair, seen: &mut Seen) {
        let allowed = pair.twin.allowed();
        let double = |&(_, kind): &(u32, u32)| kind == 4 || kind == 5;
        for (slot, kind) in allowed.iter().copied().filter(double) {
            changes_six(pair, slot, kind, Step(slot, kind), seen);
            self.add(&pair.words, slot, kind);
        }
        if let Some((slot, kind)) = allowed.iter().copied().min().filter(double) {
            let settled = changes_six(pair, slot, kind, Settle(1), seen);
            assert_eq!(settled.words, changes_six(pair, slot, kind, Step(slot, kind), seen).words);
            self.by_settle[kind as usize - 4] += 1;
        }
        // One step after another: what settle hands on is of the pool as it is then.
        if allowed.iter().any(double) {
            for budget in [2, 3, 40] {
                pair.clone().run_seen(Settle(budget), seen);
            }
        }
    }
}

/// Trees of all shapes and weights, each taken on by random allowed steps; on every pool on the way all that it allows of these kinds.
#[test]
fn six_words_in_random_trees() {
    let mut met = Met::default();
    let mut run = |rng: &mut Rng, mut pair: Pair, seen: &mut Seen| {
        for _ in 0..12 {
            met.all_of(&pair, seen);
            let allowed = pair.twin.allowed();
            if allowed.is_empty() {
                break;
            }
            let (slot, kind) = rng.pick(&allowed);
            pair.run_seen(Step(slot, kind), seen);
        }
    };
    compared("double rotations", 50_000, 200, |rng, seen| {
        for shape in SHAPES {
            for weights in WEIGHTS {
                let slots: usize = rng.pick(&[7, 9, 15, 25, 41]);
                let most = slots.div_ceil(2);
                let count = if rng.one_in(3) { most } else { 4 + rng.below(most - 3) };
                let keys = some_keys(rng, count, 4 * slots as u32);
                let level = rng.pick(&[1, 2, 3, 4, 9, 255]);
                let pair = Pair::holding(grown(rng, slots, &keys, level, shape, weights));
                run(rng, pair, seen);
            }
        }
    });
    println!("compared double rotations, kinds 4 and 5: {met:?}");
    assert!(share() > 1 || met.each_met(100), "each is met: {met:?}");
}
