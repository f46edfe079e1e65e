//! Damaged pools: the library and the twin agree on what is broken, and nothing changes on a refusal.

use crate::pair::{same_batch, same_call, same_on, Pair};
use crate::pools::{grown, some_keys, Shape, MOST_KEYS, SHAPES, WEIGHTS};
use crate::random::shared;
use crate::rng::Rng;
use crate::threads::roomy;
use crate::twin::{Call, Command, Set, MOST_SLOTS};

/// Pools small enough to try every word of.
pub fn patients(rng: &mut Rng) -> Vec<Set> {
    let mut sets = vec![Set::prepared(1), Set::prepared(2), Set::prepared(3)];
    let mut worked = Pair::prepared(9);
    worked.insert_all(&[10]);
    sets.push(worked.twin.clone());
    worked.insert_all(&[20, 30, 40]);
    sets.push(worked.twin.clone());
    worked.insert_all(&[50]);
    worked.run(Command::Delete(10));
    sets.push(worked.twin);
    for shape in SHAPES {
        for weights in WEIGHTS {
            let slots: usize = rng.pick(&[7, 11, 15]);
            let count = rng.pick(&[2, 3, slots.div_ceil(2)]);
            let keys = some_keys(rng, count, 3 * slots as u32);
            let level = rng.pick(&[1, 2, 255]);
            sets.push(grown(rng, slots, &keys, level, shape, weights));
        }
    }
    sets
}

/// Values that tell: the limits, their neighbours, other slots, and what the pool holds anyway.
fn telling(words: &[u32], at: usize) -> Vec<u32> {
    let c = words.len() as u32 / 4 - 1;
    let own = words[at];
    let mut values: Vec<u32> = (0..=c + 2).collect();
    values.extend([254, 255, 256, 257, 1 << 16, 1 << 31, (1 << 31) - 1, u32::MAX - 2, u32::MAX - 1, u32::MAX]);
    values.extend([own.wrapping_sub(1), own.wrapping_add(1), own.wrapping_add(4), own ^ (1 << 8), own.wrapping_add(1 << 30)]);
    values.extend_from_slice(words);
    values.sort_unstable();
    values.dedup();
    values.retain(|&v| v != own);
    values
}

/// One command of each operation, and some that are refused.
fn asked() -> Vec<u8> {
    let commands = [
        Command::Search(20),
        Command::Insert(25),
        Command::Insert(25),
        Command::Delete(25),
        Command::Step(1, 3),
        Command::Step(2, 6),
        Command::Settle(3),
        Command::Delete(10),
        Command::AtOrAbove(15),
        Command::Count(5, 20),
        Command::Settle(1000),
        Command::DeleteSpan(3, 12),
        Command::Count(0, u32::MAX),
        Command::DeleteSpan(20, u32::MAX),
    ];
    Command::all(&commands)
}

/// All that can be asked of the words, and a batch on them, and both calls of the ledger. The audit's code.
fn examine(words: &[u32], bytes: &[u8]) -> u32 {
    let code = same_on(words);
    assert_eq!(same_batch(words, bytes, 30), (code, 0));
    for call in [Call::MaySend { notice: 1, resident: 0, limit: 1 }, Call::Clear { notice: 1 }] {
        let ((answered, _), _) = same_call(words, call);
        // A sound pool may have no room.
        assert!(answered == code || (code, answered) == (0, 7), "{call:?}");
    }
    code
}

#[test]
fn every_word_set_to_every_telling_value() {
    let bytes = asked();
    let (mut broken, mut sound) = (0, 0);
    for set in patients(&mut Rng::seeded("damage of one word", 8000)) {
        let mut words = set.words();
        assert_eq!(examine(&words, &bytes), 0);
        for at in 0..words.len() {
            let own = words[at];
            for value in telling(&words, at) {
                words[at] = value;
                if examine(&words, &bytes) == 0 {
                    sound += 1;
                } else {
                    broken += 1;
                }
            }
            words[at] = own;
        }
    }
    println!("compared {broken} broken pools and {sound} that a change left sound");
    assert!(sound > 100, "a router may change within its bounds");
}

/// One word of a pool of the most slots: the header's, those of the first slot and the last, and of some others.
#[test]
fn words_of_the_largest_pools() {
    let (mut broken, mut sound) = (0, 0);
    roomy(|| {
        let mut rng = Rng::seeded("damage of one word of many", 8500);
        let bytes =
            Command::all(&[Command::Search(20), Command::Insert(25), Command::Step(1, 6), Command::Settle(2), Command::Count(0, 99)]);
        let c = MOST_SLOTS as u32;
        for shape in shared([Shape::Halves, Shape::Zigzag, Shape::ChainLeft, Shape::Any]) {
            let (level, weights, count) = (rng.pick(&[14, 255]), rng.pick(&WEIGHTS), MOST_KEYS - rng.pick(&[0, 40]));
            let keys = some_keys(&mut rng, count, 60_000);
            let mut words = grown(&mut rng, MOST_SLOTS, &keys, level, shape, weights).words();
            assert_eq!(examine(&words, &bytes), 0);
            let slots = [0, 1, c, rng.within(2, c - 1), rng.within(2, c - 1)];
            for at in slots.into_iter().flat_map(|slot| (0..4).map(move |part| 4 * slot as usize + part)) {
                let own = words[at];
                // Those of fewer bits come to the same: 14, which hold every slot's number, and 16.
                let telling =
                    [0, 1, c, c + 1, c + 2, own ^ 1 << 14, own ^ 1 << 16, own ^ 1 << 30, own ^ 1, own.wrapping_add(1), 256, u32::MAX];
                for value in telling.into_iter().filter(|&value| value != own) {
                    words[at] = value;
                    *(if examine(&words, &bytes) == 0 { &mut sound } else { &mut broken }) += 1;
                }
                words[at] = own;
            }
        }
    });
    println!("compared {broken} broken pools of 16,383 slots and {sound} that a change left sound");
    assert!(broken > 100 && sound > 0);
}

#[test]
fn many_words_damaged_at_once() {
    let mut rng = Rng::seeded("damage of many words", 8100);
    let bytes = asked();
    let sets = patients(&mut rng);
    let mut sound = 0;
    for _ in 0..60_000 {
        let mut words = sets[rng.below(sets.len())].words();
        for _ in 0..2 + rng.below(3) {
            let at = rng.below(words.len());
            let values = telling(&words, at);
            words[at] = rng.pick(&values);
        }
        sound += u32::from(examine(&words, &bytes) == 0);
    }
    println!("compared 60000 pools with two to four words damaged, {sound} of them sound");
}

/// Two slots or two words change places: everything is there, and in the wrong place.
#[test]
fn words_and_slots_exchanged() {
    let bytes = asked();
    for set in patients(&mut Rng::seeded("exchanges", 8200)) {
        let mut words = set.words();
        let (len, slots) = (words.len(), set.slots);
        for a in 0..len {
            for b in a + 1..len {
                words.swap(a, b);
                examine(&words, &bytes);
                words.swap(a, b);
            }
        }
        for a in 1..=slots {
            for b in a + 1..=slots {
                let exchange = |words: &mut Vec<u32>| (0..4).for_each(|i| words.swap(4 * a + i, 4 * b + i));
                exchange(&mut words);
                examine(&words, &bytes);
                exchange(&mut words);
            }
        }
    }
}

/// "Every slot is in the tree exactly once or on the free chain exactly once": N and the chain agree, and a slot is in
/// neither, or in both.
#[test]
fn lost_and_doubled_slots() {
    let bytes = asked();
    for set in patients(&mut Rng::seeded("lost slots", 8400)) {
        let sound = set.words();
        let [root, first, n] = [sound[0], sound[1], sound[2]];
        if first != 0 {
            let mut lost = sound.clone();
            (lost[1], lost[2]) = (sound[4 * first as usize + 1], n + 1);
            assert_eq!(examine(&lost, &bytes), 2, "slot {first} of {sound:?} is lost");
            let mut doubled = sound.clone();
            (doubled[4 * first as usize + 1], doubled[2]) = (first, 0);
            assert_eq!(examine(&doubled, &bytes), 2, "slot {first} of {sound:?} follows itself");
        }
        if n != 0 {
            let mut gone = sound.clone();
            (gone[0], gone[2]) = (0, 0);
            examine(&gone, &bytes);
            let mut both = sound.clone();
            (both[1], both[2]) = (root, n - 1);
            assert_eq!(examine(&both, &bytes), 2, "the root of {sound:?} is free too");
        }
    }
}

/// All leaves heavier or lighter by one, and the fourth header word with them: the sums stay equal, and what counts is L and that no leaf
/// is red. Without that word nothing is sound.
#[test]
fn all_leaves_off_by_one() {
    let mut rng = Rng::seeded("weights", 8300);
    let bytes = asked();
    for weights in WEIGHTS {
        for shape in SHAPES {
            for level in [1, 2, 254, 255] {
                let keys = some_keys(&mut rng, 6, 50);
                let words = grown(&mut rng, 13, &keys, level, shape, weights).words();
                let is_leaf = |slot: &[u32]| slot[1..3] == [0, 0] && slot[3] != u32::MAX;
                let some_light = words[4..].chunks(4).any(|slot| is_leaf(slot) && slot[3] == 1);
                for (by, sound) in [(1, level < 255), (u32::MAX, !some_light)] {
                    let mut words = words.clone();
                    words[4..].chunks_mut(4).filter(|slot| is_leaf(slot)).for_each(|slot| slot[3] = slot[3].wrapping_add(by));
                    assert_eq!(examine(&words, &bytes), 2, "{shape:?} {weights:?} {level} in the fourth word");
                    words[3] = words[3].wrapping_add(by);
                    assert_eq!(examine(&words, &bytes) == 0, sound, "{shape:?} {weights:?} {level}");
                }
            }
        }
    }
}
