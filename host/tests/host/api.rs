//! The safe crate: every answer as a type, the batch's limits, and what a refusal leaves.

use crate::pools::{grown, Shape, Weights, LARGE, LARGE_KEYS};
use crate::rng::Rng;
use crate::twin;
use chromatic::{
    raw, Answer, Batch, Command, Deleted, Found, Full, Inserted, Kind, Mark, MaySend, NoKind, Permit, Pool, Refused, Searched, Settled,
    Stepped, Text, Words,
};
use std::cell::Cell;
use std::error::Error;
use std::ops::{Deref, DerefMut};

fn mark(inserted: Inserted) -> Mark {
    match inserted {
        Inserted::NewlyMarked(mark) => mark,
        other => panic!("{other:?}"),
    }
}

fn newly(inserted: Inserted) -> (u32, u32) {
    let mark = mark(inserted);
    (mark.key(), mark.slot())
}

fn present(inserted: Inserted) -> bool {
    matches!(inserted, Inserted::KeyPresent)
}

fn no_room(inserted: Inserted) -> bool {
    matches!(inserted, Inserted::NoRoom)
}

/// P1 to P6 through the types.
#[test]
fn worked_cases_as_types() -> Result<(), Refused> {
    let mut words = [77; Pool::words_for(9)];
    let mut pool = Pool::prepare(&mut words[..])?;
    assert_eq!((pool.slots(), pool.most_keys()), (9, 5));
    assert_eq!(pool.search(10)?, Searched::KeyAbsent);
    for (key, slot) in [(10, 1), (20, 3), (30, 5), (40, 7)] {
        assert_eq!(newly(pool.insert(key)?), (key, slot));
    }
    let report = pool.report()?;
    assert_eq!((report.nodes, report.level, report.excess_weight, report.conflicts), (7, 1, 0, 1));
    assert_eq!((report.over_distance, report.red_distance, report.bound), (0, 2, 16));
    assert_eq!((report.keys(), report.red_black(), report.settle_budget()), (4, false, 16));
    assert_eq!((pool.keys()?, pool.bound()?), (4, 16));
    assert!(present(pool.insert(40)?));
    assert_eq!(pool.step(10, Kind::One)?, Stepped::NoInnerNode);
    assert_eq!(pool.step(1, Kind::Two)?, Stepped::ConditionFalse);
    assert_eq!(pool.step(1, Kind::Three)?, Stepped::Taken);
    assert_eq!(newly(pool.insert(50)?), (50, 9));
    assert!(no_room(pool.insert(60)?));
    assert_eq!(pool.step(1, Kind::One)?, Stepped::Taken);
    assert_eq!(pool.delete(10)?, Deleted::Cleared { keys_left: 4 });
    let report = pool.report()?;
    assert_eq!((report.excess_weight, report.conflicts, report.red_black()), (1, 0, false));
    assert_eq!(pool.delete(10)?, Deleted::KeyAbsent);
    assert_eq!(pool.settle(1)?, Settled::BudgetSpent { steps: 1 });
    assert_eq!(pool.settle(9)?, Settled::RedBlack { steps: 1 });
    assert!(pool.report()?.red_black());
    assert_eq!(pool.search(20)?, Searched::Marked { slot: 3 });
    pool.audit()
}

/// Two leaves of weight 9 below the root: eight units each, and settling works off one of both at a step.
#[test]
fn excess_weight_is_worked_off() -> Result<(), Refused> {
    // C, N, then each node: twice the weight, plus 1 for an inner node, and the key or router
    let mut pool = Pool::load(vec![77; Pool::words_for(3)], &[3, 3, 3, 10, 18, 10, 18, 20])?;
    let report = pool.report()?;
    assert_eq!((report.level, report.excess_weight, report.over_distance, report.bound), (9, 16, 32, 320));
    assert!(!report.red_black());
    assert_eq!(pool.settle(7)?, Settled::BudgetSpent { steps: 7 });
    let report = pool.report()?;
    assert_eq!((report.level, report.excess_weight, report.red_black()), (2, 2, false));
    assert_eq!(pool.settle(7)?, Settled::RedBlack { steps: 1 });
    let report = pool.report()?;
    assert_eq!((report.level, report.excess_weight, report.red_black()), (1, 0, true));
    Ok(())
}

#[test]
fn answers_come_in_the_batch_s_order() -> Result<(), Refused> {
    let mut words = [0; Pool::words_for(3)];
    let mut pool = Pool::prepare(&mut words[..])?;
    let mut batch = Batch::new();
    let commands = [
        Command::Insert { key: 1 },
        Command::Insert { key: 1 },
        Command::Insert { key: 2 },
        Command::Insert { key: 3 },
        Command::Search { key: 2 },
        Command::Step { slot: 1, kind: Kind::Six },
        Command::Delete { key: 9 },
        Command::Delete { key: 1 },
        Command::Settle { budget: 5 },
        Command::AtOrAbove { key: 1 },
        Command::AtOrAbove { key: 3 },
        Command::Count { first: 1, last: 3 },
        Command::DeleteSpan { first: 2, last: u32::MAX },
        Command::DeleteSpan { first: 3, last: 2 },
    ];
    commands.iter().for_each(|&c| batch.push(c).unwrap());
    let mut answers = pool.run(&batch)?;
    let left = |answers: &chromatic::Answers| (answers.len(), answers.size_hint());
    assert_eq!(left(&answers), (14, (14, Some(14))));
    assert!(matches!(answers.next(), Some(Answer::Insert { key: 1, answer: Inserted::NewlyMarked(mark) }) if mark.slot() == 1));
    assert!(matches!(answers.next(), Some(Answer::Insert { key: 1, answer: Inserted::KeyPresent })));
    assert!(matches!(answers.next(), Some(Answer::Insert { key: 2, answer: Inserted::NewlyMarked(mark) }) if mark.slot() == 3));
    assert_eq!(left(&answers), (11, (11, Some(11))));
    assert!(matches!(answers.next(), Some(Answer::Insert { key: 3, answer: Inserted::NoRoom })));
    assert!(matches!(answers.next(), Some(Answer::Search { key: 2, answer: Searched::Marked { slot: 3 } })));
    assert!(matches!(answers.next(), Some(Answer::Step { slot: 1, kind: Kind::Six, answer: Stepped::ConditionFalse })));
    assert!(matches!(answers.next(), Some(Answer::Delete { key: 9, answer: Deleted::KeyAbsent })));
    assert!(matches!(answers.next(), Some(Answer::Delete { key: 1, answer: Deleted::Cleared { keys_left: 1 } })));
    assert!(matches!(answers.next(), Some(Answer::Settle { budget: 5, answer: Settled::RedBlack { steps: 0 } })));
    assert!(matches!(answers.next(), Some(Answer::AtOrAbove { key: 1, answer: Found::Key(2) })));
    assert!(matches!(answers.next(), Some(Answer::AtOrAbove { key: 3, answer: Found::NoneAbove })));
    assert!(matches!(answers.next(), Some(Answer::Count { first: 1, last: 3, answer: 1 })));
    assert!(matches!(answers.next(), Some(Answer::DeleteSpan { first: 2, last: u32::MAX, answer: 1 })));
    assert!(matches!(answers.next(), Some(Answer::DeleteSpan { first: 3, last: 2, answer: 0 })));
    assert_eq!(left(&answers), (0, (0, Some(0))));
    assert!(answers.next().is_none() && answers.next().is_none());
    Ok(())
}

/// The builder's bytes are those of the twin, read by the twin: numbers in shortest form.
#[test]
fn the_builder_writes_shortest_forms() {
    let mut rng = Rng::seeded("the builder", 9000);
    let mut bytes = [0; Batch::LONGEST];
    for shift in 0..=32 {
        for off in [-1i64, 0, 1] {
            let n = ((1i64 << shift) + off).clamp(0, u32::MAX.into()) as u32;
            let mut batch = Batch::new();
            let mut want = vec![];
            batch.push_search(n).unwrap();
            batch.push_insert(n).unwrap();
            batch.push_delete(n).unwrap();
            batch.push_settle(n).unwrap();
            want.extend([twin::Command::Search(n), twin::Command::Insert(n), twin::Command::Delete(n), twin::Command::Settle(n)]);
            let kind = rng.pick(&Kind::ALL);
            batch.push_step(n, kind).unwrap();
            want.push(twin::Command::Step(n, kind as u32));
            batch.push_at_or_above(n).unwrap();
            batch.push_count(n..=9).unwrap();
            batch.push_delete_span(9..=n).unwrap();
            want.extend([twin::Command::AtOrAbove(n), twin::Command::Count(n, 9), twin::Command::DeleteSpan(9, n)]);
            let len = batch.write(&mut bytes);
            assert_eq!(bytes[..len], twin::Command::all(&want)[..]);
            assert_eq!(twin::commands(&bytes[..len]), Ok(want));
        }
    }
}

#[test]
fn a_batch_takes_256_commands_of_any_length() -> Result<(), Refused> {
    let mut words = [0; Pool::words_for(1)];
    let mut pool = Pool::prepare(&mut words[..])?;
    let mut batch = Batch::default();
    assert_eq!(pool.run(&batch)?.count(), 0);
    for _ in 0..Batch::MOST {
        batch.push_step(u32::MAX, Kind::Eight).unwrap();
    }
    assert_eq!(batch.push_settle(1), Err(Full));
    assert_eq!(batch.commands().len(), 256);
    let refused = |a| matches!(a, Answer::Step { slot: u32::MAX, kind: Kind::Eight, answer: Stepped::NoInnerNode });
    assert!(pool.run(&batch)?.all(refused));
    batch.clear();
    assert_eq!(pool.run(&batch)?.count(), 0);
    Ok(())
}

/// The longest good batch.
#[test]
fn the_longest_batch() -> Result<(), Refused> {
    assert_eq!((Command::LONGEST, Batch::MOST, Batch::LONGEST), (11, 256, 2816));
    let longest = [4, 0xFF, 0xFF, 0xFF, 0xFF, 0x0F, 0xFF, 0xFF, 0xFF, 0xFF, 0x0F].repeat(Batch::MOST);
    assert_eq!(longest.len(), Batch::LONGEST);
    let mut pool = Pool::prepare(vec![0; Pool::words_for(1)])?;
    let one_more = [&longest[..], &[1]].concat();
    assert_eq!(pool.run_bytes(&one_more, &mut []), Err(Refused::BadCommand { wrong_at: 2816 }), "the last place there is");
    pool.run_bytes(&longest, &mut [0; 2 * Batch::MOST])
}

/// A batch of the longest commands, built here.
#[test]
fn the_longest_batch_of_spans() -> Result<(), Refused> {
    let mut batch = Batch::new();
    while batch.push_count(u32::MAX..=u32::MAX).and_then(|()| batch.push_delete_span(u32::MAX - 1..=u32::MAX)).is_ok() {}
    let mut bytes = [0; Batch::LONGEST];
    assert_eq!((batch.len(), batch.write(&mut bytes)), (Batch::MOST, Batch::LONGEST));
    let mut pool = Pool::prepare(vec![0; Pool::words_for(1)])?;
    assert_eq!(newly(pool.insert(u32::MAX)?), (u32::MAX, 1));
    let gone: Vec<u32> = pool
        .run(&batch)?
        .map(|answer| match answer {
            Answer::Count { first: u32::MAX, last: u32::MAX, answer } => answer,
            Answer::DeleteSpan { first, last: u32::MAX, answer } if first == u32::MAX - 1 => answer,
            other => panic!("not asked: {other:?}"),
        })
        .collect();
    assert_eq!((&gone[..2], gone[2..].iter().sum()), (&[1, 1][..], 0_u32), "the first two, and then none is left");
    Ok(())
}

/// Both ends belong to a span; one that has its ends exchanged, or that was iterated to its end, has no key.
#[test]
fn spans_as_ranges() -> Result<(), Refused> {
    let mut pool = Pool::prepare(vec![0; Pool::words_for(9)])?;
    for key in [0, 5, 6, u32::MAX] {
        drop(mark(pool.insert(key)?));
    }
    let words = pool.words().to_vec();
    for (span, keys) in
        [(5..=6, 2), (5..=5, 1), (0..=5, 2), (0..=0, 1), (6..=u32::MAX, 2), (u32::MAX..=u32::MAX, 1), (0..=u32::MAX, 4), (7..=9, 0)]
    {
        assert_eq!(pool.count(span.clone())?, keys, "{span:?}");
    }
    #[allow(clippy::reversed_empty_ranges)]
    let mut none = vec![6..=5, u32::MAX..=0, 1..=0, 5..=4];
    for mut iterated in [5..=5, 5..=6, 0..=0, u32::MAX..=u32::MAX] {
        iterated.by_ref().for_each(drop);
        assert!(iterated.is_empty());
        none.push(iterated);
    }
    let mut from_the_back = 5..=5;
    assert_eq!(from_the_back.next_back(), Some(5));
    none.push(from_the_back);
    for empty in none {
        assert_eq!((pool.count(empty.clone())?, pool.delete_span(empty.clone())?), (0, 0), "{empty:?}");
        let mut batch = Batch::new();
        batch.push_count(empty.clone()).unwrap();
        batch.push_delete_span(empty.clone()).unwrap();
        for answer in pool.run(&batch)? {
            assert!(matches!(answer, Answer::Count { answer: 0, .. } | Answer::DeleteSpan { answer: 0, .. }), "{empty:?}: {answer:?}");
        }
    }
    assert_eq!(pool.words(), words);
    // what is left of a range that was iterated is a span too
    let mut rest = 0..=6;
    assert_eq!(rest.next(), Some(0));
    assert_eq!((pool.count(rest.clone())?, pool.delete_span(rest)?), (2, 2));
    assert_eq!((pool.search(5)?, pool.keys()?), (Searched::KeyAbsent, 2));
    Ok(())
}

/// The next key from one to the next, to the end of all keys; and a span deleted, which leaves what single deletes leave.
#[test]
fn spans_as_types() -> Result<(), Refused> {
    let (mut pool, _) = p1();
    assert_eq!([0, 10, 11, 40].map(|key| pool.at_or_above(key)), [10, 10, 20, 40].map(|key| Ok(Found::Key(key))));
    assert_eq!([pool.at_or_above(41)?, pool.at_or_above(u32::MAX)?], [Found::NoneAbove; 2]);
    assert_eq!([pool.count(10..=40)?, pool.count(11..=39)?, pool.count(41..=u32::MAX)?], [4, 2, 0]);
    let (mut singly, _) = p1();
    assert_eq!((singly.delete(20)?, singly.delete(30)?), (Deleted::Cleared { keys_left: 3 }, Deleted::Cleared { keys_left: 2 }));
    assert_eq!((pool.delete_span(11..=39)?, pool.delete_span(11..=39)?), (2, 0));
    assert_eq!(pool.words(), singly.words());
    pool.audit()
}

/// What host/README.md says of a place, by the byte there and the one before it.
#[derive(Clone, Copy, Debug, PartialEq, Eq)]
enum Row {
    CutShort,
    NotShortest,
    TooLarge,
    CommandBegins,
}

fn row(bytes: &[u8], place: u32) -> Row {
    let there = bytes.get(place as usize);
    match (bytes[..place as usize].last(), there) {
        (_, None) => Row::CutShort,
        (Some(0x80..), Some(0x00)) => Row::NotShortest,
        (Some(0x80..), Some(0x10..)) => Row::TooLarge,
        (None | Some(..=0x7F), _) => Row::CommandBegins,
        _ => panic!("the page has no row for byte {place} of {bytes:02X?}"),
    }
}

/// Each cause of code 3, with its place.
#[test]
fn where_a_batch_goes_wrong() -> Result<(), Refused> {
    let full = [1, 7].repeat(Batch::MOST);
    let after_256 = |bytes: &[u8]| [&full[..], bytes].concat();
    let cases = [
        // a number: its fifth byte, above 0F
        (vec![2, 0xFF, 0xFF, 0xFF, 0xFF, 0x10], 5, Row::TooLarge),
        (vec![2, 7, 4, 1, 0x80, 0x80, 0x80, 0x80, 0x8F, 0x01], 8, Row::TooLarge),
        (vec![0x80, 0x80, 0x80, 0x80, 0x80], 4, Row::TooLarge), // also where the batch ends with it
        // else the end of the batch
        (vec![0x80, 0x80, 0x80, 0x80], 4, Row::CutShort),
        (vec![2, 7, 2], 3, Row::CutShort),
        (vec![2, 7, 2, 0x80], 4, Row::CutShort),
        (vec![4, 1], 2, Row::CutShort),
        // else its last byte
        (vec![2, 7, 2, 0x80, 0x00, 9], 4, Row::NotShortest),
        (vec![2, 0x80, 0x80, 0x80, 0x80, 0x00], 5, Row::NotShortest),
        (vec![4, 1, 0x83, 0x00], 3, Row::NotShortest),
        (vec![0x82, 0x00, 7], 1, Row::NotShortest),
        // an unknown operation: where its number begins
        (vec![0], 0, Row::CommandBegins),
        (vec![2, 7, 9, 7], 2, Row::CommandBegins),
        (vec![2, 7, 0x82, 0x01, 0x80], 2, Row::CommandBegins),
        // the 257th command: where it begins, whatever is in it
        (after_256(&[1, 7]), 512, Row::CommandBegins),
        (after_256(&[9]), 512, Row::CommandBegins),
        (after_256(&[0x80, 0x80, 0x80, 0x80, 0x80]), 512, Row::CommandBegins),
        (after_256(&[0x81, 0x00]), 512, Row::CommandBegins),
        (after_256(&[2, 0x80, 0x00]), 512, Row::CommandBegins),
        // the first fault of several
        (vec![2, 0x87, 0x00, 9, 0x80], 2, Row::NotShortest),
    ];
    let mut pool = Pool::prepare(vec![0; Pool::words_for(9)])?;
    for (bytes, place, cause) in cases {
        assert_eq!(pool.run_bytes(&bytes, &mut []), Err(Refused::BadCommand { wrong_at: place }), "{bytes:02X?}");
        assert_eq!(row(&bytes, place), cause, "byte {place} of {bytes:02X?}");
    }
    assert_eq!(pool.keys()?, 0, "nothing ran");
    Ok(())
}

/// What comes before the place is good as far as it goes: whole commands where one begins there, and else it is only cut short.
#[test]
fn what_comes_before_the_place_is_good() -> Result<(), Refused> {
    const ALPHABET: [u8; 7] = [0x00, 0x01, 0x04, 0x0F, 0x10, 0x80, 0xFF];
    let mut pool = Pool::prepare(vec![0; Pool::words_for(1)])?;
    let mut answers = [0; 10];
    let mut seen = [0; 4];
    for length in 0..=5 {
        for nth in 0..ALPHABET.len().pow(length) {
            let bytes: Vec<u8> = (0..length).map(|i| ALPHABET[nth / ALPHABET.len().pow(i) % ALPHABET.len()]).collect();
            let Err(refused) = pool.run_bytes(&bytes, &mut answers) else { continue };
            let Refused::BadCommand { wrong_at } = refused else { panic!("{refused:?}") };
            let cause = row(&bytes, wrong_at);
            let before = pool.run_bytes(&bytes[..wrong_at as usize], &mut answers);
            let wanted = if cause == Row::CommandBegins { Ok(()) } else { Err(refused) };
            assert_eq!(before, wanted, "before byte {wrong_at} of {bytes:02X?}");
            seen[cause as usize] += 1;
        }
    }
    assert!(seen.iter().all(|&times| times > 20), "{seen:?}");
    Ok(())
}

/// host/README.md reads `refused 3 40`, byte by byte.
#[test]
fn the_page_s_batch_goes_wrong_at_byte_40() -> Result<(), Box<dyn Error>> {
    let mut bytes = vec![];
    for line in include_str!("../../README.md").lines().filter_map(|line| line.strip_prefix("byte ")) {
        let mut words = line.split_whitespace();
        assert_eq!(words.next(), Some(&*bytes.len().to_string()), "the page's {line}");
        bytes.extend(words.map_while(|word| u8::from_str_radix(word, 16).ok()));
    }
    // what it says that these are, and its one fault
    let mut batch = Batch::new();
    for attempt in 1..=6 {
        batch.push_insert(4411 << 16 | attempt)?;
    }
    batch.push_settle(9)?;
    batch.push_step(1, Kind::Three)?;
    let mut good = [0; Batch::LONGEST];
    let count = batch.write(&mut good);
    assert_eq!(bytes, [&good[..39], &[0x81, 0x00], &good[40..count]].concat());
    assert_eq!((bytes.len(), good[39], bytes[40]), (42, 0x01, 0x00));

    let mut pool = Pool::prepare(vec![0; Pool::words_for(127)])?;
    let mut answers = [7; 16];
    let refused = pool.run_bytes(&bytes, &mut answers).unwrap_err();
    assert_eq!(refused, Refused::BadCommand { wrong_at: 40 });
    assert_eq!(format!("refused {} {}", refused.code(), refused.number()), "refused 3 40");
    assert_eq!(row(&bytes, 40), Row::NotShortest);
    assert_eq!((answers, pool.keys()?), ([7; 16], 0), "nothing ran");
    pool.run_bytes(&good[..count], &mut answers)?;
    assert_eq!(pool.keys()?, 6);
    Ok(())
}

#[test]
fn refused_calls() {
    let mut words = vec![5; 13];
    assert!(matches!(Pool::prepare(&mut words[..]), Err(Refused::WrongLength)));
    assert!(matches!(Pool::resume(&mut words[..]), Err(Refused::WrongLength)));
    assert_eq!(words, [5; 13]);
    let mut words = vec![5; 12];
    assert!(matches!(Pool::resume(&mut words[..]), Err(Refused::RulesBroken)));
    assert_eq!(words, [5; 12]);
    let mut pool = Pool::prepare(&mut words[..]).unwrap();
    let before = pool.words().to_vec();
    let mut answers = [7; 9];
    assert_eq!(pool.run_bytes(&[2, 1, 0x80, 0x00], &mut answers), Err(Refused::BadCommand { wrong_at: 3 }));
    assert_eq!(pool.run_bytes(&[2, 1], &mut answers[..1]), Err(Refused::FewAnswers));
    assert_eq!((pool.words(), answers), (&before[..], [7; 9]));
    assert_eq!(pool.run_bytes(&[2, 1, 1, 2], &mut answers), Ok(()));
    assert_eq!(answers, [0, 1, 6, 0, 7, 7, 7, 7, 7]);
    assert!(Pool::resume(&mut words[..]).is_ok());
}

/// 11 through the types: P8.
#[test]
fn too_tall() {
    let leaf = |key| [key, 0, 0, 255];
    let mut words =
        [[1, 0, 9, 255], [3, 2, 3, 1], [2, 4, 7, 0], [4, 8, 9, 0], [1, 5, 6, 0], leaf(1), leaf(2), leaf(3), leaf(4), leaf(5)].concat();
    let mut pool = Pool::resume(&mut words[..]).unwrap();
    assert_eq!(pool.step(1, Kind::One), Ok(Stepped::TooTall));
    assert_eq!(pool.report().unwrap().settle_budget() as u64, pool.report().unwrap().bound);
}

/// Pushing alone marks nothing.
#[test]
fn a_pushed_insert_inserts_nothing() -> Result<(), Refused> {
    let mut words = [0; Pool::words_for(3)];
    let mut pool = Pool::prepare(&mut words[..])?;
    let before = pool.words().to_vec();
    let mut batch = Batch::new();
    batch.push_insert(7).unwrap();
    assert_eq!(pool.words(), before);
    assert_eq!(pool.search(7)?, Searched::KeyAbsent);
    Ok(())
}

/// "C slots hold (C+1)/2 keys", and the next insert says so, whatever was deleted and inserted before.
#[test]
fn slots_hold_so_many_keys() -> Result<(), Refused> {
    for slots in (1..=20).chain([127, LARGE - 1, LARGE]) {
        let mut pool = Pool::prepare(vec![0; Pool::words_for(slots)])?;
        let most = (slots as u32 + 1) / 2;
        assert_eq!((pool.slots(), pool.most_keys()), (slots, most as usize));
        for turn in 0..3 {
            (0..most).for_each(|key| drop(mark(pool.insert(key).unwrap())));
            let full = pool.words().to_vec();
            for _ in 0..2 {
                assert!(no_room(pool.insert(most)?) && no_room(pool.insert(u32::MAX)?), "C = {slots}, turn {turn}");
                assert!(present(pool.insert(0)?));
                assert_eq!(pool.words(), full);
            }
            assert_eq!(pool.keys()?, most.into());
            for key in 0..most {
                assert_eq!(pool.delete(key)?, Deleted::Cleared { keys_left: most - key - 1 });
            }
        }
    }
    Ok(())
}

/// The same of the most slots, filled and emptied by whole batches: 8,192 keys.
#[test]
fn the_most_slots_hold_8192_keys() -> Result<(), Box<dyn Error>> {
    assert_eq!(Pool::MOST_SLOTS, 16_383);
    let mut pool = Pool::prepare(vec![0; Pool::words_for(Pool::MOST_SLOTS)])?;
    assert_eq!((pool.slots(), pool.most_keys()), (16_383, 8192));
    let keys: Vec<u32> = (0..8192).map(|i| i * 40_503 % 65_536).collect(); // in no order
    for some in keys.chunks(256) {
        let mut batch = Batch::new();
        some.iter().try_for_each(|&key| batch.push_insert(key))?;
        let answers: Vec<Answer> = pool.run(&batch)?.collect();
        assert!(answers.into_iter().all(|answer| matches!(answer, Answer::Insert { answer: Inserted::NewlyMarked(_), .. })));
    }
    assert!(no_room(pool.insert(65_536)?) && present(pool.insert(keys[8191])?));
    assert_eq!((pool.keys()?, pool.count(0..=u32::MAX)?), (8192, 8192));
    let mut out = vec![0; pool.most_saved_bytes()?];
    let again = Pool::load(vec![7; Pool::words_for(Pool::MOST_SLOTS)], pool.save(&mut out)?)?;
    assert_eq!(again.report()?, pool.report()?);
    for some in keys.chunks(256) {
        let mut batch = Batch::new();
        some.iter().try_for_each(|&key| batch.push_delete(key))?;
        let answers: Vec<Answer> = pool.run(&batch)?.collect();
        assert!(answers.into_iter().all(|answer| matches!(answer, Answer::Delete { answer: Deleted::Cleared { .. }, .. })));
    }
    assert_eq!(pool.keys()?, 0);
    Ok(())
}

/// A pool is as large as the bytes say: of another size they are refused, and the refusal says what to do. Nothing is written.
#[test]
fn bytes_of_a_larger_pool() -> Result<(), Refused> {
    let mut out = [0; Pool::saved_bytes_for(1023)];
    let mut larger = Pool::prepare(vec![0; Pool::words_for(16_383)])?;
    drop(mark(larger.insert(4411)?));
    let saved = larger.save(&mut out)?;
    let mut words = vec![7; Pool::words_for(1023)];
    let refused = Pool::load(&mut words[..], saved).map(drop);
    assert_eq!(refused, Err(Refused::NoFit));
    assert!(refused.unwrap_err().to_string().contains("to load, lend words for as many slots as were saved"));
    // C is 16,384, as a later version may save it.
    let refused = Pool::load(&mut words[..], &[0x80, 0x80, 0x01, 0x00]).map(drop);
    assert_eq!(refused, Err(Refused::BadSaved { wrong_at: 4 }));
    assert!(refused.unwrap_err().to_string().contains("if a later version saved them, of more than 16383 slots, load them with that one"));
    assert!(words.iter().all(|&word| word == 7));
    assert!(present(Pool::load(vec![0; Pool::words_for(16_383)], saved)?.insert(4411)?));
    Ok(())
}

#[test]
fn words_for_refuses_other_counts() {
    for slots in [0, 16_384, usize::MAX / 4, usize::MAX] {
        assert!(std::panic::catch_unwind(|| Pool::words_for(slots)).is_err(), "{slots} slots");
        assert!(std::panic::catch_unwind(|| Pool::saved_bytes_for(slots)).is_err(), "{slots} slots");
    }
    assert_eq!([1, 1023, 1024, 16_383].map(Pool::words_for), [8, 4096, 4100, 65_536]);
    assert_eq!([1, 1023, 1024, 16_383].map(Pool::saved_bytes_for), [11, 7165, 7172, 114_685]);
}

/// A pool of 9 slots with 01's P1 in it, and its saved form worked by hand: C, N, then each node from the root.
fn p1() -> (Pool<Vec<u32>>, Vec<u8>) {
    let mut pool = Pool::prepare(vec![77; Pool::words_for(9)]).unwrap();
    [10, 20, 30, 40].into_iter().for_each(|key| drop(mark(pool.insert(key).unwrap())));
    let nodes = [[3, 10], [2, 10], [1, 20], [2, 20], [1, 30], [2, 30], [2, 40]];
    (pool, [&[9, 7][..], nodes.as_flattened()].concat())
}

/// What is saved is loaded, into words that may hold anything, and its next save writes the same bytes.
#[test]
fn a_set_is_saved_and_loaded() -> Result<(), Refused> {
    let (pool, bytes) = p1();
    let before = pool.words().to_vec();
    let mut out = [9; Pool::saved_bytes_for(9)];
    assert_eq!(pool.save(&mut out)?, bytes);
    assert_eq!((pool.most_saved_bytes()?, out.len()), (53, 67));
    assert_eq!(out[..bytes.len()], bytes);
    assert!(out[bytes.len()..].iter().all(|&byte| byte == 9));
    assert_eq!(pool.words(), before);

    for old in [0, 77, u32::MAX] {
        let mut again = Pool::load(vec![old; Pool::words_for(9)], &bytes)?;
        assert_eq!((again.slots(), again.keys()?, again.report()?), (9, 4, pool.report()?));
        assert_eq!(again.save(&mut vec![9; bytes.len()])?, bytes);
        assert!(present(again.insert(40)?));
        assert_eq!(newly(again.insert(50)?), (50, 9));
        assert!(no_room(again.insert(60)?));
        again.audit()?;
    }
    Ok(())
}

/// The causes in their order, and what a refusal leaves: every byte and every word.
#[test]
fn refused_saves_and_loads() {
    let (pool, bytes) = p1();
    let mut out = vec![9; bytes.len() - 1];
    assert_eq!(pool.save(&mut out), Err(Refused::NoFit));
    assert_eq!(pool.save(&mut []), Err(Refused::NoFit));
    assert!(out.iter().all(|&byte| byte == 9));

    let loaded = |words: usize, saved: &[u8]| {
        let mut words = vec![5; words];
        let refused = Pool::load(&mut words[..], saved).map(drop);
        assert!(refused.is_ok() || words.iter().all(|&word| word == 5), "{refused:?}");
        refused
    };
    let [nine, eight] = [9, 8].map(Pool::words_for);
    assert_eq!(loaded(nine, &bytes), Ok(()));
    assert_eq!(loaded(nine - 1, &bytes[1..]), Err(Refused::WrongLength));
    assert_eq!(loaded(eight, &bytes[1..]), Err(Refused::BadSaved { wrong_at: 15 }));
    assert_eq!(loaded(eight, &bytes), Err(Refused::NoFit));
    for cut in 0..bytes.len() {
        assert_eq!(loaded(nine, &bytes[..cut]), Err(Refused::BadSaved { wrong_at: cut as u32 }), "{cut} bytes");
    }
    assert_eq!(loaded(nine, &[&bytes[..], &[0]].concat()), Err(Refused::BadSaved { wrong_at: 17 }));
}

/// Each cause of code 13, with its place.
#[test]
fn where_saved_bytes_go_wrong() {
    let cases: [(&[u8], u32); 19] = [
        // the first bad number, in C: its fifth byte above 0F, the end of the bytes, its last byte
        (&[0x80, 0x80, 0x80, 0x80, 0x10, 0], 4),
        (&[0x80, 0x80, 0x80, 0x80, 0x80], 4),
        (&[], 0),
        (&[0x89], 1),
        (&[0x89, 0x00, 0x00], 1),
        // in N
        (&[9, 0xFF, 0xFF, 0xFF, 0xFF, 0x1F, 0], 5),
        (&[9], 1),
        (&[9, 0x81, 0x00, 2, 5], 2),
        // in a node
        (&[9, 1, 2, 0xFF, 0xFF, 0xFF, 0xFF, 0x10], 7),
        (&[9, 1, 2], 3),
        (&[9, 1, 0x82, 0x00, 5], 3),
        (&[9, 3, 3, 5, 2, 0x85, 0x00, 2, 6], 6),
        // before anything is judged: C is 0, N is above C, the root weighs 2
        (&[0, 1, 4, 0x85, 0x00, 9], 4),
        (&[1, 3, 4, 5, 2, 5, 2, 0x86, 0x00, 9], 8),
        // every number reads: the count of the bytes
        (&[0, 0], 2),
        (&[9, 1, 4, 5], 4),
        (&[9, 3, 3, 5, 2, 6, 2, 6], 8),
        // also where bytes are left over, which are not read
        (&[9, 1, 2, 5, 0], 5),
        (&[9, 0, 0x80, 0x00, 7], 5),
    ];
    let mut words = vec![5; Pool::words_for(9)];
    for (saved, place) in cases {
        let refused = Pool::load(&mut words[..], saved).map(drop);
        assert_eq!(refused, Err(Refused::BadSaved { wrong_at: place }), "{saved:02X?}");
        // what comes before the place is only cut short
        let before = Pool::load(&mut words[..], &saved[..place as usize]).map(drop);
        assert_eq!(before, refused, "before byte {place} of {saved:02X?}");
    }
    assert_eq!(words, [5; Pool::words_for(9)]);
}

/// Code times 4,294,967,296 plus number.
#[test]
fn raw_saves_and_loads() {
    let (pool, bytes) = p1();
    let mut words = vec![77; Pool::words_for(9)];
    let mut out = [9; Pool::saved_bytes_for(9)];
    assert_eq!(raw::save(pool.words(), &mut out), bytes.len() as u64);
    assert_eq!(raw::load(&mut words, &bytes), 7);
    assert_eq!([raw::save(&words[1..], &mut out), raw::load(&mut words[1..], &bytes)], [1 << 32; 2]);
    assert_eq!([raw::load(&mut words, &bytes[1..]), raw::load(&mut words, &[9, 0x80, 0x00])], [(13 << 32) + 15, (13 << 32) + 2]);
    assert_eq!([raw::save(&words, &mut out[..5]), raw::load(&mut words[4..], &bytes)], [14 << 32; 2]);
    words[3] = 0; // L is 1
    assert_eq!(raw::save(&words, &mut out), 2 << 32);
}

/// 01's P1 and P4 made here; the words that an archive of interface 5 left of them, whose fourth is 0; and the bytes that it saved.
fn of_before() -> Result<[(Pool<Vec<u32>>, Vec<u32>, Vec<u8>); 2], Refused> {
    let leaf = |key, weight| [key, 0, 0, weight];
    let free = |next| [0, next, 0, u32::MAX];
    let (p1_here, p1_saved) = p1();
    let p1_left =
        [[1, 8, 7, 0], [10, 2, 3, 1], leaf(10, 1), [20, 4, 5, 0], leaf(20, 1), [30, 6, 7, 0], leaf(30, 1), leaf(40, 1), free(9), free(0)];

    let (mut p4_here, _) = p1();
    assert_eq!(p4_here.step(1, Kind::Three)?, Stepped::Taken);
    assert_eq!(newly(p4_here.insert(50)?), (50, 9));
    assert_eq!(p4_here.step(1, Kind::One)?, Stepped::Taken);
    assert_eq!(p4_here.delete(10)?, Deleted::Cleared { keys_left: 4 });
    let p4_left =
        [[1, 4, 7, 0], [20, 3, 5, 1], free(0), leaf(20, 2), free(2), [30, 6, 7, 1], leaf(30, 1), [40, 8, 9, 0], leaf(40, 1), leaf(50, 1)];
    let p4_saved = vec![9, 7, 3, 20, 4, 20, 3, 30, 2, 30, 1, 40, 2, 40, 2, 50];
    Ok([(p1_here, p1_left.concat(), p1_saved), (p4_here, p4_left.concat(), p4_saved)])
}

/// Saved with an archive of interface 5 and loaded with this one. Its words are refused and stay as they are, and the refusal says how
/// they come over; its bytes load, and every key is there.
#[test]
fn a_pool_of_before_comes_over() -> Result<(), Refused> {
    for (here, left, saved) in of_before()? {
        assert_eq!((&here.words()[..3], &here.words()[4..]), (&left[..3], &left[4..]), "the fourth word alone is another");
        assert_eq!(here.save(&mut [0; Pool::saved_bytes_for(9)])?, saved, "the same bytes");

        let mut words = left.clone();
        let refused = Pool::resume(&mut words[..]).map(drop).unwrap_err();
        assert_eq!(refused, Refused::RulesBroken);
        let said = refused.to_string();
        assert!(said.contains("interface 5 or before") && said.contains("save it") && said.contains("load the bytes"), "{said}");
        let mut out = [9; Pool::saved_bytes_for(9)];
        assert_eq!([raw::batch(&mut words, &[1, 20], &mut [0; 2]), raw::save(&words, &mut out)], [2 << 32; 2]);
        assert_eq!([raw::may_send(&mut words, 1, 0, 1), raw::clear_notice(&mut words, 1)], [2 << 32; 2]);
        assert_eq!((&words, out), (&left, [9; Pool::saved_bytes_for(9)]));

        let level = here.report()?.level;
        let loaded = Pool::load(words, &saved)?.into_words();
        assert_eq!((u64::from(loaded[3]), u64::from(here.words()[3])), (level, level), "the fourth word is L");
        let mut pool = Pool::resume(loaded)?;
        assert_eq!(pool.report()?, here.report()?);
        let keys: Vec<u32> = left[4..].chunks(4).filter(|slot| slot[1] == 0 && slot[3] != u32::MAX).map(|leaf| leaf[0]).collect();
        assert_eq!(pool.keys()?, keys.len() as u64);
        for key in keys {
            assert!(matches!(pool.search(key)?, Searched::Marked { .. }), "{key}");
        }
    }
    Ok(())
}

/// With at most one key a pool of before is the same words as one made here.
#[test]
fn a_pool_of_before_with_one_key_is_taken_up() -> Result<(), Refused> {
    let mut pool = Pool::prepare(vec![77; Pool::words_for(2)])?;
    assert_eq!(Pool::resume(vec![0, 1, 0, 0, 0, 2, 0, u32::MAX, 0, 0, 0, u32::MAX])?.words(), pool.words());
    insert_one(&mut pool, 10)?;
    assert_eq!(Pool::resume(vec![1, 2, 1, 0, 10, 0, 0, 1, 0, 0, 0, u32::MAX])?.words(), pool.words());
    Ok(())
}

/// The largest saved set: every number as long as it can be.
#[test]
fn the_longest_saved_set() -> Result<(), Refused> {
    let keys: Vec<u32> = (u32::MAX - 8191..=u32::MAX).collect();
    let words = grown(&mut Rng::seeded("a large saved set", 9200), Pool::MOST_SLOTS, &keys, 255, Shape::Halves, Weights::Red).words();
    let pool = Pool::resume(words)?;
    let mut out = [0; Pool::saved_bytes_for(Pool::MOST_SLOTS)];
    assert_eq!(pool.most_saved_bytes()?, out.len());
    let saved = pool.save(&mut out)?;
    assert_eq!(saved.len(), 4 + 8192 * 7 + 8191 * 6, "leaves of weight 255 take seven bytes, inner nodes of weight 0 or 1 six");
    let again = Pool::load(vec![0; Pool::words_for(Pool::MOST_SLOTS)], saved)?;
    assert_eq!(again.report(), pool.report());
    Ok(())
}

/// With the feature `std`: just the bytes.
#[cfg(feature = "std")]
#[test]
fn a_set_is_saved_to_a_vec() -> Result<(), Refused> {
    let (pool, bytes) = p1();
    assert_eq!(pool.save_to_vec()?, bytes);
    assert_eq!(Pool::prepare(vec![0; Pool::words_for(Pool::MOST_SLOTS)])?.save_to_vec()?, [0xFF, 0x7F, 0]);
    Ok(())
}

/// A send that failed: the key can be marked anew, and its slots are free.
#[test]
fn a_mark_can_be_withdrawn() -> Result<(), Refused> {
    let mut words = [0; Pool::words_for(3)];
    let mut pool = Pool::prepare(&mut words[..])?;
    let first = mark(pool.insert(7)?);
    let lost = mark(pool.insert(8)?);
    assert!(no_room(pool.insert(9)?));
    assert_eq!(pool.withdraw(lost)?, Deleted::Cleared { keys_left: 1 });
    assert_eq!(pool.search(8)?, Searched::KeyAbsent);
    assert_eq!(newly(pool.insert(8)?).0, 8);
    assert!(present(pool.insert(8)?));
    assert_eq!(pool.delete(7)?, Deleted::Cleared { keys_left: 1 });
    assert_eq!(pool.withdraw(first)?, Deleted::KeyAbsent);
    Ok(())
}

fn permit(answer: MaySend) -> Permit {
    match answer {
        MaySend::Yes(permit) => permit,
        other => panic!("{other:?}"),
    }
}

/// A case without the permit, to be compared.
#[derive(Clone, Copy, Debug, PartialEq, Eq)]
enum May {
    Attempt(u32),
    AllUsed,
    NoRoom,
}

fn may(pool: &mut Pool<impl Words>, text: Text, limit: u32) -> Result<May, Refused> {
    pool.may_send(text, limit).map(|answer| match answer {
        MaySend::Yes(permit) => May::Attempt(permit.attempt()),
        MaySend::AllUsed => May::AllUsed,
        MaySend::NoRoom => May::NoRoom,
    })
}

/// Which attempts of a text are marked, 0 too.
fn attempts(pool: &mut Pool<impl Words>, text: Text) -> Vec<u32> {
    let key = text.notice * 65_536 + text.resident * 8;
    (0..8).filter(|attempt| matches!(pool.search(key + attempt), Ok(Searched::Marked { .. }))).collect()
}

/// A permit names its text and the key that was marked; that key and no other is new in the set. At the edges of each range.
#[test]
fn a_permit_s_attempt_is_marked() -> Result<(), Refused> {
    for notice in [1, 4411, 65_535] {
        for resident in [0, 1, 4095, 8191] {
            let mut pool = Pool::prepare(vec![0; Pool::words_for(15)])?;
            for attempt in 1..=7 {
                let permit = permit(pool.may_send(Text { notice, resident }, 7)?);
                assert_eq!((permit.notice(), permit.resident(), permit.attempt()), (notice, resident, attempt));
                assert_eq!(permit.key(), notice * 65_536 + resident * 8 + attempt);
                assert!(matches!(pool.search(permit.key())?, Searched::Marked { .. }));
                assert_eq!(pool.keys()?, attempt.into());
                pool.audit()?;
            }
            assert_eq!(may(&mut pool, Text { notice, resident }, 7)?, May::AllUsed);
        }
    }
    let (notices, residents, limits) = (Text::NOTICES, Text::RESIDENTS, Text::LIMITS);
    assert_eq!((notices, residents, limits), (1..=65_535, 0..=8_191, 1..=7));
    Ok(())
}

/// The lowest attempt that is not marked counts, not how many are: a gap is filled, and marks above the limit do not count.
#[test]
fn the_lowest_gap_is_the_attempt() -> Result<(), Refused> {
    let text = Text { notice: 4411, resident: 12 };
    let key = |attempt| 4411 << 16 | 12 << 3 | attempt;
    for limit in 1..=7 {
        for set in 0..1_u32 << 8 {
            let mut pool = Pool::prepare(vec![0; Pool::words_for(31)])?;
            let marked: Vec<u32> = (0..8).filter(|attempt| set >> attempt & 1 == 1).collect();
            marked.iter().for_each(|&attempt| drop(mark(pool.insert(key(attempt)).unwrap())));
            let before = pool.words().to_vec();
            match (1..=limit).find(|attempt| !marked.contains(attempt)) {
                Some(gap) => {
                    assert_eq!(may(&mut pool, text, limit)?, May::Attempt(gap), "limit {limit}, marked {marked:?}");
                    assert_eq!(attempts(&mut pool, text).len(), marked.len() + 1);
                }
                None => {
                    assert_eq!(may(&mut pool, text, limit)?, May::AllUsed, "limit {limit}, marked {marked:?}");
                    assert_eq!(pool.words(), before);
                }
            }
        }
    }
    Ok(())
}

/// The accident of 5:04: the set is full, and the sender asks again and again. Nothing goes, and no word changes.
#[test]
fn a_full_set_sends_nothing() -> Result<(), Refused> {
    for slots in (1..=20).chain([LARGE]) {
        let mut pool = Pool::prepare(vec![0; Pool::words_for(slots)])?;
        let most = pool.most_keys() as u32;
        for resident in 0..most {
            assert_eq!(may(&mut pool, Text { notice: 2, resident }, 1)?, May::Attempt(1), "{slots} slots, resident {resident}");
        }
        let full = pool.words().to_vec();
        for _poll in 0..3 {
            for resident in [0, most - 1, most, 8191] {
                let told = resident < most;
                assert_eq!(may(&mut pool, Text { notice: 2, resident }, 1)?, if told { May::AllUsed } else { May::NoRoom });
                assert_eq!(may(&mut pool, Text { notice: 2, resident }, 7)?, May::NoRoom);
                assert_eq!(may(&mut pool, Text { notice: 3, resident }, 1)?, May::NoRoom);
            }
            assert_eq!(pool.words(), full, "{slots} slots");
        }
        assert_eq!(pool.clear_notice(2)?, most);
        assert_eq!(may(&mut pool, Text { notice: 3, resident: 8191 }, 1)?, May::Attempt(1));
    }
    Ok(())
}

/// Clearing takes attempts 1 to 7 of every resident of that notice, and nothing else: not attempt 0, no other notice, no other key.
#[test]
fn a_notice_is_cleared() -> Result<(), Refused> {
    const ATTEMPTS: [u32; 4] = [0, 1, 3, 7];
    let mut pool = Pool::prepare(vec![0; Pool::words_for(255)])?;
    let residents = [0, 1, 77, 8190, 8191];
    let texts: Vec<Text> =
        [0, 1, 2, 3, 65_535].into_iter().flat_map(|notice| residents.map(|resident| Text { notice, resident })).collect();
    for text in &texts {
        ATTEMPTS.into_iter().for_each(|attempt| drop(mark(pool.insert(text.notice << 16 | text.resident << 3 | attempt).unwrap())));
    }
    assert_eq!(pool.clear_notice(2)?, 15, "three attempts of five residents");
    assert_eq!(pool.keys()?, 85);
    for &text in &texts {
        let kept: &[u32] = if text.notice == 2 { &[0] } else { &ATTEMPTS };
        assert_eq!(attempts(&mut pool, text), kept, "{text:?}");
    }
    pool.audit()?;
    // none is left, and a second time there is nothing to do
    let cleared = pool.words().to_vec();
    assert_eq!((pool.clear_notice(2)?, pool.clear_notice(9)?), (0, 0));
    assert_eq!(pool.words(), cleared);
    // its count begins afresh, and no other notice's
    for resident in residents {
        assert_eq!(may(&mut pool, Text { notice: 2, resident }, 1)?, May::Attempt(1));
        assert_eq!(may(&mut pool, Text { notice: 3, resident }, 1)?, May::AllUsed);
    }
    Ok(())
}

/// A failed send has no mark to withdraw: the next permit is the next attempt, and after the limit there is none.
#[test]
fn a_failed_send_uses_the_next_attempt() -> Result<(), Refused> {
    let mut pool = Pool::prepare(vec![0; Pool::words_for(15)])?;
    let text = Text { notice: 9, resident: 8 };
    let mut tried = vec![];
    for _poll in 0..9 {
        match pool.may_send(text, 3)? {
            MaySend::Yes(permit) => tried.push(permit.attempt()), // and its text fails
            other => assert!(matches!(other, MaySend::AllUsed), "{other:?}"),
        }
    }
    assert_eq!(tried, [1, 2, 3]);
    assert_eq!(attempts(&mut pool, text), [1, 2, 3]);
    Ok(())
}

/// Over restarts too: the marks that were saved count.
#[test]
fn the_limit_holds_over_restarts() -> Result<(), Refused> {
    let text = Text { notice: 4411, resident: 12 };
    let mut stored = vec![15, 0]; // an empty set of 15 slots
    let mut texts = 0;
    for _life in 0..9 {
        let mut pool = Pool::load(vec![77; Pool::words_for(15)], &stored)?;
        if let MaySend::Yes(permit) = pool.may_send(text, 4)? {
            stored = pool.save(&mut [0; Pool::saved_bytes_for(15)])?.to_vec();
            texts += 1;
            assert_eq!(permit.attempt(), texts);
        }
    }
    assert_eq!(texts, 4);
    Ok(())
}

/// Every argument just outside its range, and far outside: refused, whatever the pool is, and no word changes.
#[test]
fn arguments_out_of_range() -> Result<(), Refused> {
    let mut pool = Pool::prepare(vec![0; Pool::words_for(3)])?;
    drop(permit(pool.may_send(Text { notice: 1, resident: 0 }, 1)?));
    let before = pool.words().to_vec();
    let bad = [(0, 0, 1), (65_536, 0, 1), (u32::MAX, 0, 1), (1, 8_192, 1), (1, u32::MAX, 1), (1, 0, 0), (1, 0, 8), (1, 0, u32::MAX)];
    for (notice, resident, limit) in bad {
        assert_eq!(may(&mut pool, Text { notice, resident }, limit), Err(Refused::OutOfRange), "{notice} {resident} {limit}");
        assert_eq!(raw::may_send(&mut [], notice, resident, limit), 15 << 32);
        assert_eq!(raw::may_send(&mut [5; 12], notice, resident, limit), 15 << 32);
    }
    for notice in [0, 65_536, u32::MAX] {
        assert_eq!(pool.clear_notice(notice), Err(Refused::OutOfRange), "{notice}");
        assert_eq!([raw::clear_notice(&mut [], notice), raw::clear_notice(&mut [5; 12], notice)], [15 << 32; 2]);
    }
    assert_eq!(pool.words(), before);
    Ok(())
}

/// Code times 4,294,967,296 plus number, and the codes in their order: 15, 1, 2, 16, 7.
#[test]
fn raw_texts() {
    let mut words = vec![0; Pool::words_for(3)]; // 2 marks
    assert_eq!(raw::prepare(&mut words), 0);
    assert_eq!([raw::may_send(&mut words, 65_535, 8191, 7), raw::may_send(&mut words, 65_535, 8191, 7)], [1, 2]);
    let full = words.clone();
    assert_eq!([raw::may_send(&mut words, 65_535, 8191, 2), raw::may_send(&mut words, 65_535, 8191, 3)], [16 << 32, 7 << 32]);
    assert_eq!([raw::may_send(&mut words[1..], 65_535, 8191, 2), raw::clear_notice(&mut words[1..], 65_535)], [1 << 32; 2]);
    words[3] = 0; // L is 1
    assert_eq!([raw::may_send(&mut words, 65_535, 8191, 2), raw::clear_notice(&mut words, 65_535)], [2 << 32; 2]);
    words[3] = 1;
    assert_eq!(words, full);
    assert_eq!([raw::clear_notice(&mut words, 65_535), raw::clear_notice(&mut words, 65_535)], [2, 0]);
}

/// A resident process: it owns its pool, and hands it on.
struct Resident {
    pool: Pool<Box<[u32]>>,
}

impl Resident {
    fn begun(slots: usize) -> Result<Resident, Refused> {
        Ok(Resident { pool: Pool::prepare(vec![0; Pool::words_for(slots)].into_boxed_slice())? })
    }
}

fn insert_one(pool: &mut Pool<impl Words>, key: u32) -> Result<(u32, u32), Refused> {
    pool.insert(key).map(newly)
}

/// Lent or owned, as a slice, a vector or a box: the same words.
#[test]
fn pools_own_or_borrow() -> Result<(), Refused> {
    let mut resident = Resident::begun(9)?;
    insert_one(&mut resident.pool, 10)?;
    let owned = resident.pool.into_words();
    let mut array = [5; Pool::words_for(9)];
    let mut lent: Pool<&mut [u32]> = Pool::prepare(&mut array[..])?;
    insert_one(&mut lent, 10)?;
    assert_eq!(lent.words(), &owned[..]);
    assert_eq!(array[..], owned[..]);
    let mut again = Pool::resume(owned.into_vec())?;
    assert!(present(again.insert(10)?));
    assert_eq!(again.into_words()[..], array[..]);
    Ok(())
}

/// Words that give another slice when they are told to, the one way to damage a pool that lives, and count how often they
/// are asked.
struct Turned<'a> {
    slices: [Vec<u32>; 2],
    which: &'a Cell<usize>,
    asked: &'a Cell<usize>,
}

impl Deref for Turned<'_> {
    type Target = [u32];

    fn deref(&self) -> &[u32] {
        self.asked.set(self.asked.get() + 1);
        &self.slices[self.which.get()]
    }
}

impl DerefMut for Turned<'_> {
    fn deref_mut(&mut self) -> &mut [u32] {
        self.asked.set(self.asked.get() + 1);
        &mut self.slices[self.which.get()]
    }
}

/// Every call of a damaged pool is refused, a figure that would be 0 too.
#[test]
fn a_damaged_pool_answers_nothing() -> Result<(), Refused> {
    let mut sound = vec![0; Pool::words_for(5)];
    let _ = Pool::prepare(&mut sound[..])?;
    let mut broken = sound.clone();
    broken[3] = 1;
    let (which, asked) = (Cell::new(0), Cell::new(0));
    let mut pool = Pool::resume(Turned { slices: [sound, broken], which: &which, asked: &asked })?;
    assert_eq!((pool.keys(), pool.bound(), pool.audit()), (Ok(0), Ok(0), Ok(())));
    which.set(1);
    let refused = Refused::RulesBroken;
    assert_eq!((pool.keys(), pool.bound(), pool.audit()), (Err(refused), Err(refused), Err(refused)));
    assert_eq!(pool.report(), Err(refused));
    assert_eq!(
        (pool.search(1), pool.delete(1), pool.settle(1), pool.step(1, Kind::One)),
        (Err(refused), Err(refused), Err(refused), Err(refused))
    );
    assert_eq!((pool.at_or_above(1), pool.count(1..=2), pool.delete_span(1..=2)), (Err(refused), Err(refused), Err(refused)));
    assert!(matches!(pool.insert(1), Err(Refused::RulesBroken)));
    assert!(matches!(pool.run(&Batch::new()), Err(Refused::RulesBroken)));
    assert_eq!((may(&mut pool, Text { notice: 1, resident: 0 }, 1), pool.clear_notice(1)), (Err(refused), Err(refused)));
    assert_eq!((pool.save(&mut [0; 39]), pool.most_saved_bytes()), (Err(refused), Err(refused)));
    #[cfg(feature = "std")]
    assert_eq!(pool.save_to_vec(), Err(refused));
    Ok(())
}

/// `keys` and `bound` ask the library once where the number is not 0, and look again where it is; a report asks seven times.
#[test]
fn one_figure_is_one_call() -> Result<(), Refused> {
    let (which, asked) = (Cell::new(0), Cell::new(0));
    let words = || vec![0; Pool::words_for(9)];
    let mut pool = Pool::prepare(Turned { slices: [words(), words()], which: &which, asked: &asked })?;
    let calls = |pool: &Pool<Turned>, what: fn(&Pool<Turned>)| {
        asked.set(0);
        what(pool);
        asked.get()
    };
    assert_eq!(calls(&pool, |pool| assert_eq!(pool.keys(), Ok(0))), 2);
    [10, 20, 30, 40].into_iter().for_each(|key| drop(mark(pool.insert(key).unwrap())));
    assert_eq!(calls(&pool, |pool| assert_eq!(pool.keys(), Ok(4))), 1);
    assert_eq!(calls(&pool, |pool| assert_eq!(pool.bound(), Ok(16))), 1);
    assert_eq!(calls(&pool, |pool| assert_eq!(pool.report().unwrap().bound, 16)), 7);
    Ok(())
}

/// A bound that fits no command: the budget is the largest that does.
#[test]
fn a_bound_above_32_bits() -> Result<(), Refused> {
    let keys: Vec<u32> = (0..LARGE_KEYS as u32).collect();
    let mut words = grown(&mut Rng::seeded("a heavy tree", 9100), LARGE, &keys, 255, Shape::Halves, Weights::Red).words();
    let report = Pool::resume(&mut words[..])?.report()?;
    assert!(report.bound > u32::MAX.into(), "{report:?}");
    assert_eq!(report.settle_budget(), u32::MAX);
    // Of the most slots D is so too: 8,192 leaves of weight 255, each with 16,382 nodes outside.
    let keys: Vec<u32> = (0..8192).collect();
    let words = grown(&mut Rng::seeded("the heaviest tree", 9101), Pool::MOST_SLOTS, &keys, 255, Shape::Halves, Weights::Red).words();
    let report = Pool::resume(words)?.report()?;
    assert_eq!((report.excess_weight, report.over_distance), (8192 * 254, 8192 * 254 * 16_382));
    assert!(report.over_distance > u32::MAX.into() && report.bound > 1 << 50, "{report:?}");
    assert_eq!((report.keys(), report.settle_budget()), (8192, u32::MAX));
    Ok(())
}

/// The codes as constants.
#[test]
fn codes_are_numbered() {
    let call = [Refused::WRONG_LENGTH, Refused::RULES_BROKEN, Refused::BAD_COMMAND, Refused::FEW_ANSWERS];
    let update = [Inserted::KEY_PRESENT, Searched::KEY_ABSENT, Inserted::NO_ROOM];
    let step = [Stepped::NO_INNER_NODE, Stepped::NO_KIND, Stepped::CONDITION_FALSE, Stepped::TOO_TALL];
    let saved = [Refused::BAD_SAVED, Refused::NO_FIT];
    let texts = [Refused::OUT_OF_RANGE, MaySend::ALL_USED];
    assert!([&call[..], &update, &step, &[Settled::BUDGET_SPENT], &saved, &texts].concat().into_iter().eq(1..=16));
    let refused = [Refused::WrongLength, Refused::RulesBroken, Refused::BadCommand { wrong_at: 40 }, Refused::FewAnswers];
    assert_eq!(refused.map(|r| (r.code(), r.number())), [(1, 0), (2, 0), (3, 40), (4, 0)]);
    let later = [Refused::BadSaved { wrong_at: 41 }, Refused::NoFit, Refused::OutOfRange];
    assert_eq!(later.map(|r| (r.code(), r.number())), [(13, 41), (14, 0), (15, 0)]);
}

#[test]
fn kinds_from_numbers() {
    for (number, kind) in (1..).zip(Kind::ALL) {
        assert_eq!((Kind::try_from(number), u32::from(kind)), (Ok(kind), number));
    }
    for number in [0, 9, 256 + 1, u32::MAX] {
        assert_eq!(Kind::try_from(number), Err(NoKind { number }));
    }
}

/// `?` takes each of them into a box, and the text says what to do.
#[test]
fn errors_are_errors() {
    fn refused(words: &mut [u32]) -> Result<(), Box<dyn Error>> {
        Pool::prepare(words)?;
        Ok(())
    }
    fn full(batch: &mut Batch) -> Result<(), Box<dyn Error>> {
        loop {
            batch.push_search(1)?;
        }
    }
    fn no_kind() -> Result<Kind, Box<dyn Error>> {
        Ok(Kind::try_from(9)?)
    }
    let said = |error: Box<dyn Error>| error.to_string();
    let wrong_length =
        format!("refused with code 1: the pool's length is not that of 1 to {} slots; Pool::words_for gives it", Pool::MOST_SLOTS);
    assert_eq!(said(refused(&mut [0; 5]).unwrap_err()), wrong_length);
    assert_eq!(said(full(&mut Batch::new()).unwrap_err()), "the batch has its 256 commands: run it, and push this one into another");
    assert_eq!(said(no_kind().unwrap_err()), "9 is no kind of step: the kinds are 1 to 8");
    assert_eq!(
        Refused::RulesBroken.to_string(),
        "refused with code 2: the pool breaks an audit rule; what it says of marks means nothing, send no text by it; if an archive of \
         interface 5 or before left it, save it with one of interface 5 and load the bytes with this one, and do not prepare it"
    );
    assert_eq!(
        Refused::BadCommand { wrong_at: 40 }.to_string(),
        "refused with code 3: the batch goes wrong at byte 40, counted from 0: there a number is too large or not in shortest form, the \
         batch ends inside a command, or an unknown operation or the 257th command begins; nothing ran; write the batch anew, with a \
         Batch, which writes none like it"
    );
    assert_eq!(Refused::FewAnswers.to_string(), "refused with code 4: there are fewer than two answer words per command; lend more");
    assert_eq!(
        Refused::BadSaved { wrong_at: 41 }.to_string(),
        "refused with code 13: these bytes are no saved set: they go wrong at byte 41, counted from 0, or, where that is their count, are \
         cut short or wrong as a whole; which texts went is not known: send none, do not begin empty, put back the bytes of the last save; \
         if a later version saved them, of more than 16383 slots, load them with that one"
    );
    assert_eq!(
        Refused::NoFit.to_string(),
        "refused with code 14: it does not fit; to save, lend more room (Pool::saved_bytes_for gives enough); to load, lend words for as \
         many slots as were saved"
    );
    assert_eq!(
        Refused::OutOfRange.to_string(),
        "refused with code 15: the notice is not from 1 to 65535, the resident not from 0 to 8191, or the limit not from 1 to 7; nothing \
         was marked or cleared: send no text by it, and put the number right"
    );
}

#[test]
fn public_types_are_shown() -> Result<(), Refused> {
    let mut words = [0; Pool::words_for(9)];
    let mut pool = Pool::prepare(&mut words[..])?;
    let mut batch = Batch::new();
    batch.push_insert(7).unwrap();
    assert_eq!(format!("{batch:?}"), "Batch([Insert { key: 7 }])");
    assert_eq!((batch.len(), batch.is_empty(), Batch::new().is_empty()), (1, false, true));
    let mut answers = pool.run(&batch)?;
    assert_eq!(format!("{answers:?}"), "Answers { left: 1, to: [Insert { key: 7 }], .. }");
    assert_eq!(format!("{:?}", answers.next()), "Some(Insert { key: 7, answer: NewlyMarked(Mark { key: 7, slot: 1 }) })");
    let text = Text { notice: 4411, resident: 12 };
    assert_eq!(format!("{:?}", pool.may_send(text, 1)?), "Yes(Permit { text: Text { notice: 4411, resident: 12 }, attempt: 1 })");
    assert_eq!(format!("{:?}", pool.may_send(text, 1)?), "AllUsed");
    assert_eq!(pool.clear_notice(4411)?, 1);
    assert_eq!(format!("{pool:?}"), "Pool { slots: 9, .. }");
    assert_eq!(
        format!("{:?}", pool.report()?),
        "Report { nodes: 1, level: 0, excess_weight: 0, conflicts: 0, over_distance: 0, red_distance: 0, bound: 0 }"
    );
    Ok(())
}

/// The archive's interface is the last one that docs/INTERFACE.md lists.
#[test]
fn the_interface_is_the_listed_one() {
    let page = std::fs::read_to_string(concat!(env!("CARGO_MANIFEST_DIR"), "/../docs/INTERFACE.md")).expect("docs/INTERFACE.md");
    let mut listed = page.lines().filter_map(|line| line.strip_prefix("| ")?.split(' ').next()?.parse().ok());
    assert_eq!(listed.next_back(), Some(raw::interface()));
}
