//! Request (vii), commands over a span of keys: 6, 7 and 8. Worked by hand; on pools of every kind, compared with the twin and with the sorted
//! keys as they stand in the words; the words after 8 and those after single deletes; which keys there are over a history, by a BTreeSet.

use crate::ledger::held;
use crate::pair::{library_batch, same_batch, Pair, Seen};
use crate::pools::{deepest, deepest_from, grown, some_keys, Shape, Weights, LARGE, LARGE_KEYS, MOST_KEYS, SHAPES, WEIGHTS};
use crate::random::{command, compared, near, share, shared, span, Mix, MIXES, SMALL};
use crate::rng::Rng;
use crate::threads::roomy;
use crate::twin::{Answer, Call, Command, Set, MOST_SLOTS};
use crate::worked::after_p1;
use std::collections::BTreeSet;
use Command::{AtOrAbove, Count, Delete, DeleteSpan, Insert, Search, Settle};

const LAST: u32 = u32::MAX;

// Worked by hand.

fn lines(pair: &mut Pair, lines: &[(Command, Answer)]) {
    for &(command, answer) in lines {
        assert_eq!(pair.run(command), answer, "{command:?}");
    }
}

/// The keys 10, 20, 30 and 40 of 01's P1.
#[test]
fn the_next_key_of_four() {
    let asked = [(0, 10), (9, 10), (10, 10), (11, 20), (20, 20), (29, 30), (31, 40), (40, 40)];
    let mut pair = after_p1(9);
    lines(&mut pair, &asked.map(|(given, key)| (AtOrAbove(given), (0, key))));
    lines(&mut pair, &[41, 1000, 1 << 31, LAST].map(|given| (AtOrAbove(given), (6, 0))));
    assert_eq!(pair.words, after_p1(9).words);
}

#[test]
fn spans_of_four_keys_counted() {
    let mut pair = after_p1(9);
    #[rustfmt::skip]
    let counts = [
        (0, LAST, 4), (10, 40, 4), (0, 9, 0), (0, 10, 1), (10, 10, 1), (10, 11, 1), (9, 11, 1), (11, 19, 0), (11, 20, 1), (20, 30, 2),
        (19, 31, 2), (21, 29, 0), (25, 39, 1), (25, 40, 2), (40, 40, 1), (40, LAST, 1), (41, LAST, 0), (LAST, LAST, 0), (0, 0, 0),
        // a above b
        (40, 10, 0), (20, 10, 0), (11, 10, 0), (10, 9, 0), (30, 0, 0), (LAST, 0, 0), (LAST, 10, 0), (1, 0, 0),
    ];
    lines(&mut pair, &counts.map(|(first, last, keys)| (Count(first, last), (0, keys))));
    assert_eq!(pair.words, after_p1(9).words);
}

/// 20 goes, and its sibling's words come to slot 3; then 30, in the same way. The leaf's slot is freed first, then the sibling's: 4, 5, 6, 7.
#[test]
fn two_of_four_deleted() {
    let mut pair = after_p1(9);
    lines(&mut pair, &[(DeleteSpan(15, 35), (0, 2))]);
    let free = |next| [0, next, 0, u32::MAX];
    let leaf = |key| [key, 0, 0, 1];
    let words = [[1, 7, 3, 1], [10, 2, 3, 1], leaf(10), leaf(40), free(8), free(4), free(5), free(6), free(9), free(0)];
    assert_eq!(pair.words, words.concat());
    lines(&mut pair, &[(DeleteSpan(15, 35), (0, 0)), (DeleteSpan(40, 10), (0, 0))]);
    assert_eq!(pair.words, words.concat(), "nothing went, and no word changed");
    // 10 goes, and 40 comes to the root; then the root.
    lines(&mut pair, &[(DeleteSpan(0, LAST), (0, 2))]);
    let words = [[0, 1, 0, 0], free(3), free(7), free(2), free(8), free(4), free(5), free(6), free(9), free(0)];
    assert_eq!(pair.words, words.concat());
}

/// "answering how many went", and 3's number is the keys left.
#[test]
fn deleted_and_left() {
    for (first, last, gone) in [(0, LAST, 4), (10, 10, 1), (40, LAST, 1), (0, 39, 3), (11, 19, 0), (40, 10, 0)] {
        let mut pair = after_p1(9);
        lines(&mut pair, &[(DeleteSpan(first, last), (0, gone)), (Count(0, LAST), (0, 4 - gone))]);
    }
}

/// Keys at both ends of all: no number lies above the last, and none below 0.
#[test]
fn the_first_and_the_last_number() {
    let ends = || {
        let mut pair = Pair::prepared(9);
        pair.insert_all(&[0, 1, LAST - 1, LAST]);
        pair
    };
    let mut pair = ends();
    lines(&mut pair, &[(AtOrAbove(0), (0, 0)), (AtOrAbove(1), (0, 1)), (AtOrAbove(2), (0, LAST - 1)), (AtOrAbove(LAST), (0, LAST))]);
    lines(&mut pair, &[(Count(0, 0), (0, 1)), (Count(LAST, LAST), (0, 1)), (Count(0, LAST), (0, 4)), (Count(1, LAST - 1), (0, 2))]);
    lines(&mut pair, &[(Count(LAST, 0), (0, 0)), (DeleteSpan(LAST, 0), (0, 0)), (DeleteSpan(2, LAST - 2), (0, 0))]);
    assert_eq!(pair.words, ends().words);
    for (first, last, left) in [
        (LAST, LAST, &[0, 1, LAST - 1][..]),
        (LAST - 1, LAST, &[0, 1]),
        (LAST - 1, LAST - 1, &[0, 1, LAST]),
        (0, 0, &[1, LAST - 1, LAST]),
        (0, 1, &[LAST - 1, LAST]),
        (1, LAST, &[0]),
        (0, LAST - 1, &[LAST]),
        (0, LAST, &[]),
    ] {
        let mut pair = ends();
        assert_eq!(pair.run(DeleteSpan(first, last)), (0, 4 - left.len() as u32), "{first} to {last}");
        assert_eq!(held(&pair.words), left, "{first} to {last}");
        lines(&mut pair, &[(AtOrAbove(LAST), if left.contains(&LAST) { (0, LAST) } else { (6, 0) })]);
    }
}

#[test]
fn an_empty_pool_and_one_key() {
    for slots in [1, 2, 9, MOST_SLOTS] {
        let mut pair = Pair::prepared(slots);
        let empty = pair.words.clone();
        for a in near(&[7]) {
            lines(&mut pair, &[(AtOrAbove(a), (6, 0))]);
            near(&[7]).into_iter().for_each(|b| lines(&mut pair, &[(Count(a, b), (0, 0)), (DeleteSpan(a, b), (0, 0))]));
        }
        assert_eq!(pair.words, empty);
        pair.insert_all(&[7]);
        for a in near(&[7]) {
            lines(&mut pair, &[(AtOrAbove(a), if a <= 7 { (0, 7) } else { (6, 0) })]);
            for b in near(&[7]) {
                let one = u32::from(a <= 7 && 7 <= b);
                let mut gone = pair.clone();
                lines(&mut gone, &[(Count(a, b), (0, one)), (DeleteSpan(a, b), (0, one)), (DeleteSpan(a, b), (0, 0))]);
                assert_eq!(gone.words == empty, one == 1);
            }
        }
    }
}

/// In one batch, after one another: 2,816 bytes of them, and their answers.
#[test]
fn a_batch_of_spans() {
    let words = after_p1(9).words;
    let mut pool = words.clone();
    let mut answers = [77; 14];
    let commands = [Count(15, LAST), DeleteSpan(15, 25), Count(15, LAST), AtOrAbove(15), Insert(20), AtOrAbove(15)];
    assert_eq!(library_batch(&mut pool, &Command::all(&commands), &mut answers), (0, 0));
    assert_eq!(answers, [0, 3, 0, 1, 0, 2, 0, 30, 0, 5, 0, 20, 77, 77]);
    for longest in [Count(LAST, LAST), DeleteSpan(LAST, LAST)] {
        let bytes = Command::all(&[longest; 256]);
        assert_eq!((bytes.len(), same_batch(&words, &bytes, 512)), (2816, (0, 0)));
        assert_eq!(same_batch(&words, &[&bytes[..], &[6]].concat(), 512), (3, 2816));
    }
}

/// "in the order 1, 3, 4, 2", with no word changed; 6 and nothing else refuses one of these commands.
#[test]
fn refusals_in_their_order() {
    let good = after_p1(9).words;
    let mut broken = good.clone();
    broken[3] = 0; // L is 1
    for (whole, cut) in [(vec![6, 10], vec![6]), (vec![7, 10, 40], vec![7, 10]), (vec![8, 10, 40], vec![8, 10]), (vec![8, 40, 10], vec![8])]
    {
        let place = cut.len() as u32;
        for (words, bytes, room, want) in [
            (&broken[..39], &cut, 0, (1, 0)),
            (&broken[..39], &whole, 2, (1, 0)),
            (&broken, &cut, 0, (3, place)),
            (&broken, &whole, 1, (4, 0)),
            (&broken, &whole, 2, (2, 0)),
            (&good, &cut, 2, (3, place)),
            (&good, &whole, 1, (4, 0)),
            (&good, &whole, 2, (0, 0)),
        ] {
            assert_eq!(same_batch(words, bytes, room), want, "{bytes:02X?} with {room} answer words");
        }
    }
}

// On pools of every kind. What is wanted is told by the sorted keys, without the twin.

fn from_to(keys: &[u32], first: u32, last: u32) -> Vec<u32> {
    keys.iter().copied().filter(|&key| first <= key && key <= last).collect()
}

/// Commands that change nothing, in batches: their answers.
fn answers(words: &[u32], commands: &[Command]) -> Vec<Answer> {
    let mut pool = words.to_vec();
    let mut all = vec![];
    for some in commands.chunks(256) {
        let mut answers = vec![77; 2 * some.len()];
        assert_eq!(library_batch(&mut pool, &Command::all(some), &mut answers), (0, 0));
        all.extend(answers.chunks(2).map(|answer| (answer[0], answer[1])));
    }
    assert_eq!(pool, words, "commands that change nothing changed a word");
    all
}

/// The next key from each end on, and the keys between each two ends, both ways round. How many commands.
fn all_ends(words: &[u32], ends: &[u32]) -> u64 {
    let keys = held(words);
    let next: Vec<Command> = ends.iter().map(|&end| AtOrAbove(end)).collect();
    for (&end, answer) in ends.iter().zip(answers(words, &next)) {
        let want = keys.iter().find(|&&key| key >= end).map_or((6, 0), |&key| (0, key));
        assert_eq!(answer, want, "the next key from {end} on, of {keys:?}");
    }
    let spans: Vec<(u32, u32)> = ends.iter().flat_map(|&a| ends.iter().map(move |&b| (a, b))).collect();
    let counts: Vec<Command> = spans.iter().map(|&(a, b)| Count(a, b)).collect();
    for (&(a, b), answer) in spans.iter().zip(answers(words, &counts)) {
        assert_eq!(answer, (0, from_to(&keys, a, b).len() as u32), "the keys from {a} to {b}, of {keys:?}");
    }
    (next.len() + counts.len()) as u64
}

/// "The tree after 8 is the one that single deletes in that order leave": every word of the pool, free chain and all, by one delete after the
/// other, each in a call of its own. And by the twin (`Pair::run`).
fn deleted(pair: &Pair, first: u32, last: u32, seen: &mut Seen) -> Pair {
    let keys = held(&pair.words);
    let gone = from_to(&keys, first, last);
    let mut singly = pair.words.clone();
    for (&key, left) in gone.iter().zip((0..keys.len() as u32).rev()) {
        let mut answer = [77; 2];
        assert_eq!(library_batch(&mut singly, &Command::all(&[Delete(key)]), &mut answer), (0, 0));
        assert_eq!(answer, [0, left]);
    }
    let mut at_once = pair.clone();
    assert_eq!(at_once.run_seen(DeleteSpan(first, last), seen), (0, gone.len() as u32), "{first} to {last} of {keys:?}");
    assert_eq!(at_once.words, singly, "the words after {first} to {last} of {keys:?} are deleted");
    assert_eq!(held(&singly), keys.into_iter().filter(|key| !gone.contains(key)).collect::<Vec<_>>());
    at_once
}

/// From the first key to the last by the next one each time. After the last number there is none to ask for.
fn walked(words: &[u32]) -> Vec<u32> {
    let mut met = vec![];
    let mut next = Some(0);
    while let Some((0, key)) = next.map(|from| answers(words, &[AtOrAbove(from)])[0]) {
        met.push(key);
        next = key.checked_add(1);
    }
    met
}

/// Grown pools of all shapes and weights, near 0, near the last number or anywhere; every two ends near a key.
#[test]
fn every_two_ends_in_grown_pools() {
    let mut asked = 0;
    compared("spans between every two ends", 60_000, 30, |rng, seen| {
        for shape in SHAPES {
            for weights in WEIGHTS {
                let slots: usize = rng.pick(&[3, 5, 9, 15, 25]);
                let most = slots.div_ceil(2);
                let count = if rng.one_in(3) { most } else { 1 + rng.below(most) };
                let highest = rng.pick(&[2 * slots as u32, 1000, LAST]);
                let lift = if rng.one_in(2) { 0 } else { LAST - highest };
                let keys: Vec<u32> = some_keys(rng, count, highest).into_iter().map(|key| key + lift).collect();
                let level = if count == 1 { 0 } else { rng.pick(&[1, 2, 3, 254, 255]) };
                let pair = Pair::holding(grown(rng, slots, &keys, level, shape, weights));
                let ends = near(&keys);
                asked += all_ends(&pair.words, &ends);
                assert_eq!(walked(&pair.words), keys);
                for _ in 0..12 {
                    deleted(&pair, rng.pick(&ends), rng.pick(&ends), seen);
                }
                for (first, last) in [(0, LAST), (keys[0], LAST), (0, keys[count - 1]), (keys[0], keys[count - 1]), (keys[count / 2], LAST)]
                {
                    deleted(&pair, first, last, seen);
                }
            }
        }
    });
    println!("compared {asked} next keys and counts with the sorted keys");
}

/// Pools that commands of all kinds have lived in, their free chains in no order: a span goes, and the next commands take its slots again.
#[test]
fn pools_that_were_lived_in() {
    let mut pools = 0u64;
    let seen = compared("spans in pools that were lived in", 61_000, 60, |rng, seen| {
        for slots in SMALL {
            let most = slots as u32;
            let mut pair = Pair::prepared(slots);
            for _ in 0..8 {
                let mix = rng.pick(&MIXES);
                for _ in 0..slots.min(60) {
                    let next = command(rng, &pair.twin, &mix, most);
                    pair.run_seen(next, seen);
                }
                pools += 1;
                let keys = held(&pair.words);
                all_ends(&pair.words, &near(&keys[..keys.len().min(9)]));
                assert_eq!(walked(&pair.words), keys);
                for _ in 0..3 {
                    let (first, last) = span(rng, most);
                    let after = deleted(&pair, first, last, seen);
                    if rng.one_in(2) {
                        pair = after;
                    }
                }
            }
        }
    });
    println!(
        "compared the words after a span and after single deletes in {pools} pools; spans of no, one and more keys: {:?}",
        seen.deleted
    );
    assert!(share() > 1 || seen.deleted.iter().all(|&spans| spans > 1000));
}

/// Spans of none, one, some and all keys, at either end and in the middle of pools of 1,023 slots.
#[test]
fn spans_in_large_pools() {
    compared("spans in pools of 1,023 slots", 62_000, 2, |rng, seen| {
        let keys = some_keys(rng, LARGE_KEYS, LAST);
        let anywhere = |rng: &mut Rng| {
            SHAPES.map(|shape| {
                let (level, weights) = (rng.pick(&[1, 9, 255]), rng.pick(&WEIGHTS));
                grown(rng, LARGE, &keys, level, shape, weights)
            })
        };
        let deep = [deepest(LARGE, Shape::ChainLeft), deepest_from(LAST - 511, LARGE, Shape::ChainRight)];
        for set in anywhere(rng).into_iter().chain(deep) {
            let pair = Pair::holding(set);
            let keys = held(&pair.words);
            let some: Vec<u32> = [0, 1, 2, 100, 255, 256, 257, 510, 511].map(|i| keys[i]).to_vec();
            all_ends(&pair.words, &near(&some));
            assert_eq!(walked(&pair.words), keys);
            for (from, count) in [(0, 1), (0, 256), (0, 512), (100, 16), (255, 2), (256, 256), (511, 1), (1, 510)] {
                deleted(&pair, keys[from], keys[from + count - 1], seen);
            }
            let pair = deleted(&pair, keys[300].saturating_add(1), keys[40], seen);
            assert_eq!(deleted(&pair, 0, LAST, seen).header()[..3], [0, pair.words[0], 0]);
        }
    });
}

/// The same in pools of the most slots.
#[test]
fn spans_in_the_largest_pools() {
    roomy(|| {
        compared("spans in pools of 16,383 slots", 63_000, 2, |rng, seen| {
            let keys = some_keys(rng, MOST_KEYS, LAST);
            let anywhere = SHAPES.map(|shape| {
                let (level, weights) = (rng.pick(&[1, 14, 255]), rng.pick(&WEIGHTS));
                grown(rng, MOST_SLOTS, &keys, level, shape, weights)
            });
            let highest = deepest_from(LAST - (MOST_KEYS as u32 - 1), MOST_SLOTS, Shape::ChainRight);
            for set in shared([highest].into_iter().chain(anywhere)) {
                let pair = Pair::holding(set);
                let keys = held(&pair.words);
                let last = MOST_KEYS - 1;
                all_ends(&pair.words, &near(&[0, 1, MOST_KEYS / 2, last - 1, last].map(|i| keys[i])));
                for (from, to) in [(0, 0), (last - 200, last), (MOST_KEYS / 2, MOST_KEYS / 2 + 20)] {
                    deleted(&pair, keys[from], keys[to], seen);
                }
            }
            let pair = Pair::holding(grown(rng, MOST_SLOTS, &keys, 14, Shape::Halves, Weights::Light));
            assert_eq!(deleted(&pair, 0, LAST, seen).header()[..3], [0, pair.words[0], 0]);
        });
    });
}

// A history.

const HISTORY: [Mix; 4] = [[1, 6, 1, 1, 0, 1, 1, 1], [1, 3, 2, 1, 1, 1, 1, 2], [1, 9, 1, 0, 0, 1, 1, 1], [1, 2, 2, 2, 1, 2, 2, 0]];

/// What the keys so far say that a command answers; those of step and settle, the slots, and whether there is room, they do not.
fn told(keys: &BTreeSet<u32>, command: Command, slots: usize) -> Option<Answer> {
    match command {
        Search(key) if !keys.contains(&key) => Some((6, 0)),
        Insert(key) if keys.contains(&key) => Some((5, 0)),
        Insert(_) if 2 * keys.len() + 1 > slots => Some((7, 0)),
        Delete(key) if keys.contains(&key) => Some((0, keys.len() as u32 - 1)),
        Delete(_) => Some((6, 0)),
        AtOrAbove(key) => Some(keys.range(key..).next().map_or((6, 0), |&next| (0, next))),
        Count(first, last) | DeleteSpan(first, last) => {
            Some((0, from_to(&keys.iter().copied().collect::<Vec<_>>(), first, last).len() as u32))
        }
        _ => None,
    }
}

fn follow(keys: &mut BTreeSet<u32>, command: Command, (code, _): Answer) {
    match command {
        _ if code != 0 => {}
        Insert(key) => assert!(keys.insert(key)),
        Delete(key) => assert!(keys.remove(&key)),
        DeleteSpan(first, last) => keys.retain(|&key| key < first || last < key),
        _ => {}
    }
}

/// Over any commands, calls of the send limit and restarts, the keys of the set are those that were put in and not taken out since: by a
/// delete, by a span that they are in, or by a clearing of their notice.
#[test]
fn a_history_with_spans() {
    let mut taken = [0u64; 3]; // by a delete, a span, a clearing
    let mut restarts = 0;
    let seen = compared("histories with spans", 63_000, 60, |rng, seen| {
        for slots in SMALL {
            let mut pair = Pair::prepared(slots);
            let mut keys = BTreeSet::new();
            // Keys around the first notice's: its marks come and go by all ways.
            let (low, most) = (65_536 - 4, slots as u32 + 8);
            for turn in 0..300 {
                let before = keys.len() as u64;
                match rng.below(12) {
                    0 => {
                        let call = Call::MaySend { notice: 1, resident: rng.within(0, most / 8), limit: rng.within(1, 7) };
                        if let ((0, attempt), Call::MaySend { resident, .. }) = (pair.call(call), call) {
                            assert!(keys.insert(65_536 + 8 * resident + attempt));
                        }
                    }
                    1 if rng.one_in(4) => {
                        let gone = pair.call(Call::Clear { notice: 1 });
                        keys.retain(|&key| key / 65_536 != 1 || key % 8 == 0);
                        assert_eq!(gone, (0, (before - keys.len() as u64) as u32));
                        taken[2] += before - keys.len() as u64;
                    }
                    2 if rng.one_in(4) => {
                        pair.restart();
                        restarts += 1;
                    }
                    _ => {
                        let next = lifted(command(rng, &pair.twin, &HISTORY[turn / 75], most), low);
                        let want = told(&keys, next, slots);
                        let answer = pair.run_seen(next, seen);
                        assert_eq!(answer, want.unwrap_or(answer), "{next:?} on {keys:?}");
                        follow(&mut keys, next, answer);
                        if let Delete(_) | DeleteSpan(..) = next {
                            taken[usize::from(matches!(next, DeleteSpan(..)))] += before - keys.len() as u64;
                        }
                    }
                }
                assert!(held(&pair.words).into_iter().eq(keys.iter().copied()), "{keys:?} in {:?}", pair.words);
            }
        }
    });
    println!("compared histories: {} commands, {restarts} restarts; keys taken by a delete, a span, a clearing: {taken:?}", seen.commands);
    assert!(share() > 1 || taken.iter().all(|&keys| keys > 1000) && restarts > 100);
}

/// The command with its small keys moved up; the far ones stay.
fn lifted(command: Command, by: u32) -> Command {
    let up = |key: u32| if key < by { key + by } else { key };
    match command {
        Search(key) => Search(up(key)),
        Insert(key) => Insert(up(key)),
        Delete(key) => Delete(up(key)),
        AtOrAbove(key) => AtOrAbove(up(key)),
        Count(first, last) => Count(up(first), up(last)),
        DeleteSpan(first, last) => DeleteSpan(up(first), up(last)),
        other => other,
    }
}

/// A set that is a span of itself: every key of every pool that inserts lead to, one by one from the left, and from the right.
#[test]
fn spans_from_either_end() {
    let mut seen = Seen::default();
    for slots in [9, 31] {
        let keys: Vec<u32> = (0..slots as u32 / 2).map(|i| 10 * i).collect();
        let mut pair = Pair::holding(Set::prepared(slots));
        pair.insert_all(&keys);
        pair.run(Settle(3));
        let (mut left, mut right) = (pair.clone(), pair);
        for (i, &key) in keys.iter().enumerate() {
            let other = keys[keys.len() - 1 - i];
            left = deleted(&left, 0, key, &mut seen);
            right = deleted(&right, other, LAST, &mut seen);
            assert_eq!((held(&left.words), held(&right.words)), (keys[i + 1..].to_vec(), keys[..keys.len() - 1 - i].to_vec()));
        }
    }
}
