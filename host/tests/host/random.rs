//! Random commands, one at a time and in batches, by the library and the twin; the audit after every command.

use crate::pair::{library_batch, overweight, same_batch, Pair, Seen};
use crate::pools::{grown, some_keys, Shape, Weights, LARGE, LARGE_KEYS, MOST_KEYS, SHAPES, WEIGHTS};
use crate::rng::Rng;
use crate::threads::roomy;
use crate::twin::{read, write_number, Command, Set, MOST_SLOTS};
use std::collections::{BTreeSet, HashSet};
use std::ops::RangeInclusive;
use std::time::Instant;

/// How many times the usual work: `host/test soak N` sets it.
pub fn soak() -> u64 {
    number_from("HOST_SOAK", 1)
}

/// A smaller share of the usual work, for host/faults: one part in so many.
pub fn share() -> u64 {
    number_from("HOST_SHARE", 1)
}

fn number_from(variable: &str, otherwise: u64) -> u64 {
    std::env::var(variable).map_or(otherwise, |n| n.parse().expect("a number"))
}

/// One in so many of them, by the share: the first is among them.
pub fn shared<T>(all: impl IntoIterator<Item = T>) -> impl Iterator<Item = T> {
    all.into_iter().step_by(share() as usize)
}

/// Every shape with all weights, or the share of that.
pub fn shapes_and_weights() -> impl Iterator<Item = (Shape, Weights)> {
    shared(SHAPES.into_iter().flat_map(|shape| WEIGHTS.map(|weights| (shape, weights))))
}

/// As many seeds from `first` on as the usual work, the soak and the share make.
pub fn seeds(first: u64, usual: u64) -> RangeInclusive<u64> {
    first..=first + (usual * soak()).div_ceil(share()) - 1
}

/// Runs `once` for seeds from `first` on, and says how much was compared.
pub fn compared(test: &str, first: u64, usual: u64, mut once: impl FnMut(&mut Rng, &mut Seen)) -> Seen {
    let begun = Instant::now();
    let mut seen = Seen::default();
    let seeds = seeds(first, usual);
    let last = *seeds.end();
    for seed in seeds {
        once(&mut Rng::seeded(test, seed), &mut seen);
    }
    let (commands, steps, seconds) = (seen.commands, seen.settle_steps, begun.elapsed().as_secs_f64());
    println!("compared {commands} commands ({steps} steps of settle) in {test}, seeds {first} to {last}, {seconds:.1} s");
    seen
}

/// Mostly keys that are near each other, sometimes far ones.
fn key(rng: &mut Rng, most: u32) -> u32 {
    if rng.one_in(16) {
        rng.pick(&[0, 1, 127, 128, 16_383, 16_384, 1 << 28, i32::MAX as u32, u32::MAX - 1, u32::MAX])
    } else {
        rng.within(0, most)
    }
}

/// Half of the steps are allowed ones, where there are any; many of the others stand at the root, where 11 is.
pub fn step(rng: &mut Rng, set: &Set) -> Command {
    let allowed = if rng.one_in(2) { set.allowed() } else { vec![] };
    let (slot, kind) = match rng.below(8) {
        _ if !allowed.is_empty() => rng.pick(&allowed),
        0 => (rng.next() as u32, rng.next() as u32),
        1 => (rng.within(0, set.slots as u32 + 1), rng.within(0, 9)),
        2 | 3 => (root_slot(set), rng.within(1, 8)),
        _ => (some_inner_slot(rng, set), rng.within(0, 9)),
    };
    Command::Step(slot, kind)
}

fn root_slot(set: &Set) -> u32 {
    set.tree.as_ref().map_or(0, |root| root.to.slot)
}

/// An inner node's slot by a random way down, or 0.
fn some_inner_slot(rng: &mut Rng, set: &Set) -> u32 {
    let mut found = 0;
    let mut at = set.tree.as_ref();
    while let Some(e) = at.filter(|e| e.to.below.is_some()) {
        found = e.to.slot;
        at = if rng.one_in(6) { None } else { e.to.edges().get(rng.below(2)) };
    }
    found
}

/// A first and a last key: mostly of a few keys, with an end at 0 or at the last number, all keys, or none since the first is above the last.
pub fn span(rng: &mut Rng, most: u32) -> (u32, u32) {
    let (a, b) = (key(rng, most), key(rng, most));
    match rng.below(16) {
        0 => (0, a.min(b)),
        1 => (a.max(b), u32::MAX),
        2 => (0, u32::MAX),
        3 => (a.min(b), a.max(b)),
        4 => (a.max(b), a.min(b)),
        5 => (a, a),
        6 => (b, b.wrapping_sub(1)),
        _ => (a, a.saturating_add(rng.below(most as usize / 8 + 2) as u32)),
    }
}

/// These keys and their neighbours, and the ends of all keys, ascending.
pub fn near(keys: &[u32]) -> Vec<u32> {
    let near = keys.iter().flat_map(|&key| [key.saturating_sub(1), key, key.saturating_add(1)]);
    let all: BTreeSet<u32> = near.chain([0, u32::MAX]).collect();
    all.into_iter().collect()
}

/// How likely each operation is, in the order of their numbers.
pub type Mix = [usize; 8];
pub const MIXES: [Mix; 9] = [
    [1, 1, 1, 1, 1, 1, 1, 0],
    [1, 4, 1, 2, 0, 0, 0, 0],
    [1, 1, 4, 2, 0, 0, 0, 0],
    [0, 3, 2, 0, 1, 0, 0, 0],
    [0, 1, 1, 8, 0, 0, 0, 0],
    [1, 0, 0, 1, 1, 1, 2, 0],
    [0, 4, 3, 0, 0, 0, 0, 0],
    [0, 9, 1, 2, 1, 1, 1, 1],
    [1, 5, 0, 0, 0, 1, 1, 2],
];

pub fn command(rng: &mut Rng, set: &Set, mix: &Mix, most: u32) -> Command {
    let mut ticket = rng.below(mix.iter().sum());
    let operation = mix.iter().position(|&share| {
        let mine = ticket < share;
        ticket = ticket.wrapping_sub(share);
        mine
    });
    match operation {
        Some(0) => Command::Search(key(rng, most)),
        Some(1) => Command::Insert(key(rng, most)),
        Some(2) => Command::Delete(key(rng, most)),
        Some(3) => step(rng, set),
        Some(4) => Command::Settle(rng.pick(&[0, 1, 2, 3, 7, 100, u32::MAX])),
        Some(5) => Command::AtOrAbove(key(rng, most)),
        Some(6) => {
            let (first, last) = span(rng, most);
            Command::Count(first, last)
        }
        _ => {
            let (first, last) = span(rng, most);
            Command::DeleteSpan(first, last)
        }
    }
}

/// Commands one at a time, the mix changing on the way.
fn run_singly(rng: &mut Rng, pair: &mut Pair, count: usize, most: u32, seen: &mut Seen) {
    let mut mix = &MIXES[0];
    for i in 0..count {
        if i % 100 == 0 {
            mix = &MIXES[rng.below(MIXES.len())];
            pair.look();
        }
        let next = command(rng, &pair.twin, mix, most);
        pair.run_seen(next, seen);
    }
    pair.look();
}

pub const SMALL: [usize; 12] = [1, 2, 3, 4, 7, 9, 16, 31, 31, 63, 63, 127];

#[test]
fn small_pools_one_command_at_a_time() {
    let seen = compared("small pools", 1, 100, |rng, seen| {
        for slots in SMALL {
            run_singly(rng, &mut Pair::prepared(slots), 1000, slots as u32, seen);
        }
    });
    assert!(share() > 1 || seen.commands >= 1_000_000, "a million commands");
    let Seen { codes, kinds, counted, deleted, .. } = seen;
    println!("compared codes by operation (search, insert, delete, step, settle, at_or_above, count, delete_span): {:?}", &codes[1..]);
    println!("compared steps accepted by kind: {:?}", &kinds[1..]);
    println!("compared spans of no, one and more keys: {counted:?} counted, {deleted:?} deleted");
    for (operation, wanted) in
        [(1, &[0, 6][..]), (2, &[0, 5, 7]), (3, &[0, 6]), (4, &[0, 8, 9, 10]), (5, &[0, 12]), (6, &[0, 6]), (7, &[0]), (8, &[0])]
    {
        for &code in wanted {
            assert!(share() > 1 || codes[operation][code] > 1000, "operation {operation} was answered {code} too rarely");
        }
    }
    assert!(share() > 1 || kinds[1..].iter().all(|&k| k > 100), "each kind is accepted");
    assert!(share() > 1 || [counted, deleted].as_flattened().iter().all(|&spans| spans > 1000), "spans of all sizes are met");
}

/// Every pool that moves lead to from an empty one of few slots, and on each of them every move. How many pools those are.
pub fn every_reached<M: Copy>(slots: usize, moves: &[M], mut run: impl FnMut(&mut Pair, M)) -> usize {
    let mut reached = HashSet::new();
    let mut ahead = vec![Pair::prepared(slots)];
    while let Some(pair) = ahead.pop() {
        if !reached.insert(pair.words.clone()) {
            continue;
        }
        pair.look();
        for &one in moves {
            let mut next = pair.clone();
            run(&mut next, one);
            if next.words != pair.words {
                ahead.push(next);
            }
        }
    }
    reached.len()
}

/// Every pool that commands lead to from an empty one of few slots and keys, and on each of them every command.
fn every_pool(slots: usize, keys: &[u32]) {
    let mut commands: Vec<Command> = (0..=slots as u32 + 1).flat_map(|s| (0..=9).map(move |k| Command::Step(s, k))).collect();
    commands.extend([0, 1, u32::MAX].map(Command::Settle));
    commands.extend(keys.iter().flat_map(|&key| [Command::Search(key), Command::Insert(key), Command::Delete(key)]));
    let ends = near(keys);
    commands.extend(ends.iter().map(|&key| Command::AtOrAbove(key)));
    commands.extend(ends.iter().flat_map(|&a| ends.iter().flat_map(move |&b| [Command::Count(a, b), Command::DeleteSpan(a, b)])));
    let mut seen = Seen::default();
    let pools = every_reached(slots, &commands, |pair, command| {
        pair.run_seen(command, &mut seen);
    });
    let (all, keys) = (seen.commands, keys.len());
    println!("compared {all} commands: each of {} on each of the {pools} pools of {slots} slots and {keys} keys", commands.len());
}

#[test]
fn every_small_pool() {
    for slots in 1..=6 {
        every_pool(slots, &[0, 7, u32::MAX]);
    }
    if share() == 1 {
        every_pool(7, &[0, 1, 7, u32::MAX]);
    }
}

/// Sound pools of all shapes and weights, L up to 255, full ones among them.
#[test]
fn grown_pools() {
    let seen = compared("grown pools", 1000, 60, |rng, seen| {
        for shape in SHAPES {
            for weights in WEIGHTS {
                let slots: usize = rng.pick(&[3, 9, 21, 41, 80]);
                let most = slots.div_ceil(2);
                let keys = if rng.one_in(3) { most } else { 1 + rng.below(most) };
                let keys = some_keys(rng, keys, 4 * slots as u32);
                let level = if keys.len() == 1 { 0 } else { rng.pick(&[1, 2, 3, 254, 255, 255]) };
                let mut pair = Pair::holding(grown(rng, slots, &keys, level, shape, weights));
                pair.look();
                pair.run_seen(Command::Step(root_slot(&pair.twin), 1), seen);
                run_singly(rng, &mut pair, 100, 4 * slots as u32, seen);
            }
        }
    });
    println!("compared steps refused with 11: {}; accepted by kind: {:?}", seen.codes[4][11], &seen.kinds[1..]);
    assert!(share() > 1 || seen.codes[4][11] > 20, "kind 1 at the root with L = 255");
    assert!(share() > 1 || seen.kinds[1..].iter().all(|&k| k > 100), "each kind is accepted");
}

/// Every allowed step of every grown pool, one at a time until none is left, never more than the first report's bound; none raises the
/// excess weight, or lowers it by more than 2.
#[test]
fn steps_end_within_the_bound() {
    compared("steps to the end", 2000, 20, |rng, seen| {
        for shape in SHAPES {
            for weights in WEIGHTS {
                let keys = some_keys(rng, 12, 100);
                let level = rng.pick(&[1, 2, 6]);
                let mut pair = Pair::holding(grown(rng, 25, &keys, level, shape, weights));
                let bound = pair.report()[6];
                let mut taken = 0;
                let mut excess = pair.report()[2];
                loop {
                    let allowed = pair.twin.allowed();
                    if allowed.is_empty() {
                        break;
                    }
                    // 02 (vii): deleting a span without a key is no update, and the bound stands.
                    if rng.below(4) == 0 {
                        let key = rng.within(0, 120);
                        let first = if pair.twin.in_order().contains(&key) { key + 1 } else { key };
                        let words = pair.words.clone();
                        pair.run_seen(Command::DeleteSpan(first, key), seen);
                        assert_eq!(pair.words, words, "no key from {first} to {key}");
                    }
                    let (slot, kind) = rng.pick(&allowed);
                    pair.run_seen(Command::Step(slot, kind), seen);
                    taken += 1;
                    assert!(taken <= bound, "{taken} steps with a bound of {bound}");
                    let before = std::mem::replace(&mut excess, pair.report()[2]);
                    assert!((excess..=excess + 2).contains(&before), "kind {kind}: the excess weight was {before} and is {excess}");
                }
                assert_eq!(pair.report()[2..4], [0, 0], "red-black at the end");
            }
        }
    });
}

/// 02 (iii): the third number is "the sum of weight less one", and "0 under the same trees as before": those with no edge above weight 1.
#[test]
fn excess_weight_is_read_off_the_words() {
    // Pools with no such edge, with one for each unit, and with fewer: there some edge weighs more than 2.
    let [mut none, mut as_many, mut fewer] = [0u64; 3];
    let mut hold = |pair: &Pair| {
        let third = pair.report()[2];
        let (edges, excess) = overweight(&pair.words);
        assert_eq!(third, excess, "the excess weight of {:?}", pair.words);
        assert_eq!(third == 0, edges == 0, "{edges} overweighted edges in {:?}", pair.words);
        match edges {
            0 => none += 1,
            _ if edges == excess => as_many += 1,
            _ => fewer += 1,
        }
    };
    let mut run = |rng: &mut Rng, mut pair: Pair, seen: &mut Seen| {
        hold(&pair);
        let (mix, most) = (rng.pick(&MIXES), pair.twin.slots as u32);
        for _ in 0..100 {
            let next = command(rng, &pair.twin, &mix, most);
            pair.run_seen(next, seen);
            hold(&pair);
        }
    };
    compared("excess weight", 20_000, 60, |rng, seen| {
        for slots in SMALL {
            run(rng, Pair::prepared(slots), seen);
        }
        for shape in SHAPES {
            for weights in WEIGHTS {
                let keys = some_keys(rng, 12, 25);
                let level = rng.pick(&[1, 2, 3, 9, 255]);
                let pair = Pair::holding(grown(rng, 25, &keys, level, shape, weights));
                run(rng, pair, seen);
            }
        }
    });
    println!("compared pools with no overweighted edge: {none}; one for each unit of excess weight: {as_many}; fewer: {fewer}");
    assert!(share() > 1 || [none, as_many, fewer].iter().all(|&pools| pools > 1000), "each is met");
}

#[test]
fn large_pools() {
    compared("pools of 1,023 slots", 3000, 4, |rng, seen| {
        let mut pair = Pair::prepared(LARGE);
        let mut keys = some_keys(rng, LARGE_KEYS + 8, 5000);
        rng.shuffle(&mut keys);
        for &key in &keys {
            pair.run_seen(Command::Insert(key), seen);
        }
        run_singly(rng, &mut pair, 1500, 5000, seen);
        pair.run_seen(Command::Settle(u32::MAX), seen);
        rng.shuffle(&mut keys);
        for &key in &keys {
            pair.run_seen(Command::Delete(key), seen);
        }
    });
}

/// Heavy and red pools of 1,023 slots, settled piece by piece and to the end.
#[test]
fn large_grown_pools() {
    let mut shapes = SHAPES.into_iter().cycle();
    compared("grown pools of 1,023 slots", 4000, SHAPES.len() as u64, |rng, seen| {
        let shape = shapes.next().unwrap();
        for weights in WEIGHTS {
            let keys = some_keys(rng, LARGE_KEYS, 100_000);
            let level = if weights == Weights::Red { 1 } else { 255 };
            let mut pair = Pair::holding(grown(rng, LARGE, &keys, level, shape, weights));
            pair.look();
            run_singly(rng, &mut pair, 60, 100_000, seen);
            pair.run_seen(Command::Settle(200), seen);
        }
    });
}

/// A command of which settle takes few steps: the twin looks at all slots after each.
fn quick_command(rng: &mut Rng, set: &Set, mix: &Mix, most: u32) -> Command {
    match command(rng, set, mix, most) {
        Command::Settle(budget) => Command::Settle(budget.min(7)),
        other => other,
    }
}

/// Pools of the most slots, of all shapes and weights, full or nearly so, and commands of all operations.
#[test]
fn pools_of_the_most_slots() {
    const HIGHEST: u32 = 20_000;
    let seen = roomy(|| {
        compared("pools of 16,383 slots", 9000, 3, |rng, seen| {
            let mut live_in = |rng: &mut Rng, mut pair: Pair| {
                pair.look();
                for mix in [MIXES[0], rng.pick(&MIXES)] {
                    for _ in 0..16 {
                        let next = quick_command(rng, &pair.twin, &mix, HIGHEST);
                        pair.run_seen(next, seen);
                    }
                }
                let root = root_slot(&pair.twin);
                for (slot, kind) in [(MOST_SLOTS as u32 + 1, 1), (1 << 14 | root, 1), (1 << 16 | root, 1), (root, 9)] {
                    pair.run_seen(Command::Step(slot, kind), seen);
                }
                pair.look();
            };
            for (shape, weights) in shapes_and_weights() {
                let count = MOST_KEYS - rng.pick(&[0, 0, 1, 3, 500]);
                let keys = some_keys(rng, count, HIGHEST);
                let level = if weights == Weights::Red { 1 } else { rng.pick(&[14, 255]) };
                let pair = Pair::holding(grown(rng, MOST_SLOTS, &keys, level, shape, weights));
                live_in(rng, pair);
            }
            // One that is settled, by the library alone.
            let keys = some_keys(rng, MOST_KEYS - 9, HIGHEST);
            let mut words = grown(rng, MOST_SLOTS, &keys, 1, Shape::Halves, Weights::Red).words();
            assert_eq!(library_batch(&mut words, &Command::all(&[Command::Settle(u32::MAX)]), &mut [0; 2]), (0, 0));
            live_in(rng, Pair::holding(read(&words).expect("a sound pool")));
        })
    });
    println!("compared codes by operation in pools of 16,383 slots: {:?}; steps by kind: {:?}", &seen.codes[1..], &seen.kinds[1..]);
    for (operation, wanted) in
        [(1, &[0, 6][..]), (2, &[0, 5, 7]), (3, &[0, 6]), (4, &[0, 8, 9, 10]), (5, &[0, 12]), (6, &[0]), (7, &[0]), (8, &[0])]
    {
        for &code in wanted {
            assert!(share() > 1 || seen.codes[operation][code] > 0, "operation {operation} was never answered {code}");
        }
    }
}

/// From empty to full and back, in whole batches: the keys in any order, and settled a little after each batch.
#[test]
fn the_most_slots_are_filled_and_emptied() {
    roomy(|| {
        compared("16,383 slots filled and emptied", 9100, 1, |rng, seen| {
            let mut keys: Vec<u32> = some_keys(rng, MOST_KEYS + 6, u32::MAX);
            rng.shuffle(&mut keys);
            let mut words = Pair::prepared(MOST_SLOTS).words;
            let mut run = |words: &mut Vec<u32>, commands: Vec<Command>| {
                let bytes = Command::all(&commands);
                let mut answers = vec![0; 2 * commands.len()];
                assert_eq!(same_batch(words, &bytes, answers.len()), (0, 0));
                assert_eq!(library_batch(words, &bytes, &mut answers), (0, 0));
                seen.commands += commands.len() as u64;
                answers.chunks(2).map(|answer| answer[0]).collect::<Vec<u32>>()
            };
            for some in keys[..MOST_KEYS].chunks(250) {
                let inserts = some.iter().map(|&key| Command::Insert(key)).chain([Command::Settle(9)]);
                let codes = run(&mut words, inserts.collect());
                assert!(codes[..some.len()].iter().all(|&code| code == 0), "{codes:?}");
            }
            assert_eq!(words[1..3], [0, MOST_SLOTS as u32], "no slot is free");
            let more: Vec<Command> = keys[MOST_KEYS..].iter().chain(&keys[..2]).map(|&key| Command::Insert(key)).collect();
            assert_eq!(run(&mut words, more), [7, 7, 7, 7, 7, 7, 5, 5]);
            rng.shuffle(&mut keys);
            for some in keys.chunks(250) {
                run(&mut words, some.iter().map(|&key| Command::Delete(key)).chain([Command::Settle(9)]).collect());
            }
            assert_eq!([words[0], words[2], words[3]], [0, 0, 0], "every key is gone");
        })
    });
}

fn some_commands(rng: &mut Rng, set: &Set, count: usize, most: u32) -> Vec<Command> {
    let mix = rng.pick(&MIXES);
    (0..count).map(|_| command(rng, set, &mix, most)).collect()
}

/// Batches of many commands: the whole at once is the same as one at a time.
#[test]
fn batches_are_their_commands_in_order() {
    compared("whole batches", 5000, 60, |rng, seen| {
        let slots = rng.pick(&[1, 2, 3, 9, 33, 127]);
        let mut pair = Pair::prepared(slots);
        for _ in 0..20 {
            let count = rng.pick(&[0, 1, 2, 5, 16, 100, 255, 256]);
            let commands = some_commands(rng, &pair.twin, count, 2 * slots as u32);
            let mut whole = pair.words.clone();
            let mut answers = vec![0; 2 * count];
            assert_eq!(library_batch(&mut whole, &Command::all(&commands), &mut answers), (0, 0));
            for (command, answer) in commands.iter().zip(answers.chunks(2)) {
                assert_eq!(pair.run_seen(*command, seen), (answer[0], answer[1]), "{command:?} in a batch");
            }
            assert_eq!(whole, pair.words, "the pool after a batch");
        }
    });
}

/// The batch's bytes with something wrong in them, most of the time.
fn spoiled(rng: &mut Rng, commands: &[Command]) -> Vec<u8> {
    let mut bytes = vec![];
    let unlucky = rng.below(commands.len() + 1);
    let way = rng.below(9);
    for (i, command) in commands.iter().enumerate() {
        let mut numbers = command.numbers();
        if i == unlucky && way == 0 {
            numbers[0] = rng.pick(&[0, 9, 10, 15, 127, 128, 136, 256 + 1, u32::MAX]);
        }
        let wrong = rng.below(numbers.len());
        for (place, &number) in numbers.iter().enumerate() {
            let padding = if i == unlucky && way == 1 && place == wrong { 1 + rng.below(4) } else { 0 };
            write_number(number, padding, &mut bytes);
        }
        if i == unlucky && way == 2 {
            bytes.extend([0xFF, 0xFF, 0xFF, 0xFF, rng.within(0x10, 0x7F) as u8]);
        }
    }
    match way {
        3 => bytes.truncate(rng.below(bytes.len() + 1)),
        4 if !bytes.is_empty() => {
            let at = rng.below(bytes.len());
            bytes[at] = rng.next() as u8;
        }
        5 if !bytes.is_empty() => {
            let at = rng.below(bytes.len());
            bytes[at] ^= 1 << rng.below(8);
        }
        6 if !bytes.is_empty() => {
            bytes.remove(rng.below(bytes.len()));
        }
        7 => bytes.insert(rng.below(bytes.len() + 1), rng.next() as u8),
        _ => {}
    }
    bytes
}

#[test]
fn spoiled_batches() {
    let mut refusals = [0u32; 5];
    compared("spoiled batches", 6000, 30, |rng, seen| {
        for _ in 0..100 {
            let keys = some_keys(rng, 10, 40);
            let (level, shape, weights) = (rng.pick(&[1, 2, 255]), rng.pick(&SHAPES), rng.pick(&WEIGHTS));
            let set = grown(rng, 31, &keys, level, shape, weights);
            let mut words = set.words();
            if rng.one_in(4) {
                let at = rng.below(words.len());
                words[at] = words[at].wrapping_add(rng.pick(&[1, 2, u32::MAX]));
            }
            let count = rng.pick(&[0, 1, 2, 3, 10, 40, 255, 256, 257]);
            let commands = some_commands(rng, &set, count, 40);
            let bytes = spoiled(rng, &commands);
            let room = (2 * count + rng.below(5)).saturating_sub(rng.below(4));
            let (code, _) = same_batch(&words, &bytes, room);
            refusals[code as usize] += 1;
            seen.commands += if code == 0 { count as u64 } else { 0 };
        }
    });
    println!("compared batches by code: 0, 1, 2, 3, 4: {refusals:?}");
    assert!(share() > 1 || [0, 2, 3, 4].iter().all(|&code| refusals[code] > 50));
}

/// Bytes that were never a batch.
#[test]
fn noise_as_a_batch() {
    compared("noise", 7000, 20, |rng, seen| {
        let words = Pair::prepared(9).words;
        for _ in 0..500 {
            let len = rng.below(24);
            let bytes: Vec<u8> = (0..len).map(|_| if rng.one_in(3) { rng.next() as u8 } else { rng.within(0, 9) as u8 }).collect();
            let room = rng.below(30);
            same_batch(&words, &bytes, room);
            seen.commands += 1;
        }
    });
}
