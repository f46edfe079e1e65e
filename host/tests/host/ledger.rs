//! The send limit of request (iv): may_send and clear_notice by the library and the twin; and what 02 says of them, counted
//! here without the twin.

use crate::pair::{by_code, library_batch, same_call, Pair};
use crate::pools::{grown, some_keys, Shape, LARGE, SHAPES, WEIGHTS};
use crate::random::{every_reached, seeds, share, shared, step};
use crate::rng::Rng;
use crate::threads::roomy;
use crate::twin::{Answer, Call, Command, Parts, Set, LIMITS, MOST_SLOTS, NOTICES, RESIDENTS};
use std::collections::BTreeMap;
use std::time::Instant;

/// How often each answer was seen.
#[derive(Default)]
struct Seen {
    /// By code, as `clearings`.
    sends: [u64; 17],
    clearings: [u64; 17],
    /// Yes answers by attempt, from 1 on.
    attempts: [u64; 8],
    marks_cleared: u64,
    commands: u64,
    restarts: u64,
}

impl Seen {
    fn add(&mut self, call: Call, (code, number): Answer) {
        match call {
            Call::MaySend { .. } => {
                self.sends[code as usize] += 1;
                self.attempts[number as usize] += u64::from(code == 0);
            }
            Call::Clear { .. } => {
                self.clearings[code as usize] += 1;
                self.marks_cleared += u64::from(number);
            }
        }
    }

    /// On a sound pool. Its words after are those after the commands that the call stands for, without the twin.
    fn call(&mut self, pair: &mut Pair, call: Call) -> Answer {
        let mut words = pair.words.clone();
        let answer = pair.call(call);
        let commands = stands_for(call, answer, &words);
        for some in commands.chunks(256) {
            assert_eq!(library_batch(&mut words, &Command::all(some), &mut vec![0; 2 * some.len()]), (0, 0));
        }
        assert_eq!(pair.words, words, "{call:?}, answered {answer:?}");
        self.add(call, answer);
        answer
    }

    /// On any words, which stay.
    fn ask(&mut self, words: &[u32], call: Call) -> Answer {
        let (answer, _) = same_call(words, call);
        self.add(call, answer);
        answer
    }

    fn run(&mut self, pair: &mut Pair, command: Command) {
        pair.run(command);
        self.commands += 1;
    }

    fn restart(&mut self, pair: &mut Pair) {
        pair.restart();
        self.restarts += 1;
    }
}

/// Says how much was compared in `all`, and gives how often each answer was seen.
fn compared(test: &str, all: impl FnOnce(&mut Seen)) -> Seen {
    let begun = Instant::now();
    let mut seen = Seen::default();
    all(&mut seen);
    let Seen { sends, clearings, attempts, marks_cleared, commands, restarts } = &seen;
    println!(
        "compared may_send by code ({}), yes by attempt {:?}, clear_notice by code ({}), {marks_cleared} marks cleared, {commands} commands, {restarts} restarts in {test}, {:.1} s",
        by_code(sends),
        &attempts[1..],
        by_code(clearings),
        begun.elapsed().as_secs_f64()
    );
    seen
}

/// Runs `once` for seeds from `first` on.
fn seeded(test: &str, first: u64, usual: u64, mut once: impl FnMut(&mut Rng, &mut Seen)) -> Seen {
    let seeds = seeds(first, usual);
    compared(&format!("{test}, seeds {first} to {}", seeds.end()), |seen| {
        seeds.for_each(|seed| once(&mut Rng::seeded(test, seed), seen));
    })
}

fn send(notice: u32, resident: u32, limit: u32) -> Call {
    Call::MaySend { notice, resident, limit }
}

fn clear(notice: u32) -> Call {
    Call::Clear { notice }
}

fn key(notice: u32, resident: u32, attempt: u32) -> u32 {
    Parts { notice, resident, attempt }.key()
}

/// Keys that a sound pool's leaves hold, the smallest first, read straight off its words.
pub fn held(words: &[u32]) -> Vec<u32> {
    let leaves = words[4..].chunks(4).filter(|slot| slot[1..3] == [0, 0] && slot[3] != u32::MAX);
    let mut keys: Vec<u32> = leaves.map(|slot| slot[0]).collect();
    keys.sort_unstable();
    keys
}

/// Whether a key is a mark of the notice.
fn is_mark_of(notice: u32, key: u32) -> bool {
    key / 65_536 == notice && key % 8 != 0
}

/// The commands that a call with this answer stands for: the insert of one mark, or the delete of each, smallest first.
fn stands_for(call: Call, (code, number): Answer, before: &[u32]) -> Vec<Command> {
    match call {
        _ if code != 0 => vec![],
        Call::MaySend { notice, resident, .. } => vec![Command::Insert(key(notice, resident, number))],
        Call::Clear { notice } => held(before).into_iter().filter(|&key| is_mark_of(notice, key)).map(Command::Delete).collect(),
    }
}

// Worked by hand, without the twin's answers: what 02 says, in numbers.

/// Sends in order, and what each must answer.
fn sends_answer(pair: &mut Pair, (notice, resident): (u32, u32), sends: &[(u32, Answer)]) {
    for &(limit, want) in sends {
        let call = send(notice, resident, limit);
        assert_eq!(pair.call(call), want, "{call:?}");
    }
}

/// The table of docs/FORMATS.md, "Worked by hand", in a pool of 5 slots.
#[test]
fn the_page_s_lines() {
    let mut pair = Pair::prepared(5);
    sends_answer(&mut pair, (4411, 17), &[(2, (0, 1)), (2, (0, 2)), (2, (16, 0))]);
    sends_answer(&mut pair, (4411, 18), &[(2, (0, 1))]);
    assert_eq!(held(&pair.words), [289_079_433, 289_079_434, 289_079_441]);
    sends_answer(&mut pair, (4412, 17), &[(2, (7, 0))]);
    pair.run(Command::Delete(289_079_433));
    sends_answer(&mut pair, (4411, 17), &[(2, (0, 1))]);
    sends_answer(&mut pair, (4411, 8_192), &[(2, (15, 0))]);
    assert_eq!(held(&pair.words), [289_079_433, 289_079_434, 289_079_441]);
    assert_eq!(pair.call(clear(4411)), (0, 3));
    assert!(held(&pair.words).is_empty());
}

#[test]
fn attempts_in_turn_then_all_used() {
    for (notice, resident) in [(1, 0), (4411, 1), (65_535, 8_191), (1, 8_191), (65_535, 0)] {
        for limit in LIMITS {
            let mut pair = Pair::prepared(31);
            let yes = (1..=limit).map(|attempt| (limit, (0, attempt)));
            let turns: Vec<_> = yes.chain([(limit, (16, 0)), (limit, (16, 0))]).collect();
            sends_answer(&mut pair, (notice, resident), &turns);
            let first = notice * 65_536 + resident * 8 + 1;
            assert_eq!(held(&pair.words), (0..limit).map(|later| first + later).collect::<Vec<_>>());
        }
    }
}

/// The words that a first and a second yes leave: those of 01's inserts, for slots and weights.
#[test]
fn the_words_after_two_yes() {
    let mut pair = Pair::prepared(4);
    sends_answer(&mut pair, (4411, 1), &[(2, (0, 1))]);
    assert_eq!(pair.words, [1, 2, 1, 0, 289_079_305, 0, 0, 1, 0, 3, 0, u32::MAX, 0, 4, 0, u32::MAX, 0, 0, 0, u32::MAX]);
    sends_answer(&mut pair, (4411, 1), &[(2, (0, 2)), (2, (16, 0)), (3, (7, 0))]);
    let two = [1, 4, 3, 1, 289_079_305, 2, 3, 1, 289_079_305, 0, 0, 1, 289_079_306, 0, 0, 1, 0, 0, 0, u32::MAX];
    assert_eq!(pair.words, two);
    // The leaf's slot is freed first, then the sibling's: of the first mark slots 2 and 3, of the last slot 1.
    assert_eq!(pair.call(clear(4411)), (0, 2));
    assert_eq!(pair.words, [0, 1, 0, 0, 0, 3, 0, u32::MAX, 0, 4, 0, u32::MAX, 0, 2, 0, u32::MAX, 0, 0, 0, u32::MAX]);
    assert_eq!(pair.call(clear(4411)), (0, 0), "no marks");
}

/// Not how many are marked counts, but which is the lowest that is not.
#[test]
fn a_gap_is_filled() {
    for limit in LIMITS {
        for gap in LIMITS.filter(|&gap| gap <= limit) {
            let mut pair = Pair::prepared(31);
            (1..=limit).for_each(|attempt| sends_answer(&mut pair, (9, 5), &[(limit, (0, attempt))]));
            assert_eq!(pair.run(Command::Delete(key(9, 5, gap))).0, 0);
            sends_answer(&mut pair, (9, 5), &[(limit, (0, gap)), (limit, (16, 0))]);
        }
    }
    // Two gaps: the lower first. And with marks that were set in no order.
    let mut pair = Pair::prepared(31);
    pair.insert_all(&[key(9, 5, 6), key(9, 5, 2), key(9, 5, 4)]);
    sends_answer(&mut pair, (9, 5), &[(7, (0, 1)), (7, (0, 3)), (7, (0, 5)), (7, (0, 7)), (7, (16, 0))]);
}

#[test]
fn a_limit_that_changes() {
    let mut pair = Pair::prepared(31);
    let (all_used, yes) = ((16, 0), |attempt| (0, attempt));
    sends_answer(&mut pair, (9, 5), &[(1, yes(1)), (1, all_used), (3, yes(2)), (2, all_used), (3, yes(3)), (3, all_used), (1, all_used)]);
    sends_answer(&mut pair, (9, 5), &[(7, yes(4)), (4, all_used), (5, yes(5)), (7, yes(6)), (6, all_used), (7, yes(7)), (7, all_used)]);
}

/// Marks above the limit do not count, and attempt 0 never does.
#[test]
fn what_does_not_count() {
    let mut pair = Pair::prepared(31);
    pair.insert_all(&[key(9, 5, 0), key(9, 5, 3), key(9, 5, 4), key(9, 5, 7), key(9, 6, 0), key(9, 6, 1), key(8, 5, 1), key(10, 5, 1)]);
    sends_answer(&mut pair, (9, 5), &[(2, (0, 1)), (2, (0, 2)), (2, (16, 0)), (4, (16, 0)), (5, (0, 5)), (7, (0, 6)), (7, (16, 0))]);
    assert_eq!(pair.call(clear(9)), (0, 8));
    assert_eq!(held(&pair.words), [key(8, 5, 1), key(9, 5, 0), key(9, 6, 0), key(10, 5, 1)]);
    sends_answer(&mut pair, (9, 5), &[(2, (0, 1))]);
}

/// "7 for no room": 1 free slot for an empty set, else 2. Two residents in pools of few slots.
#[test]
fn room_for_one_more_mark() {
    for slots in 1..=9 {
        let mut pair = Pair::prepared(slots);
        let most = slots.div_ceil(2) as u32;
        let yes = (1..=most.min(7)).map(|attempt| (7, (0, attempt)));
        sends_answer(&mut pair, (3, 2), &yes.chain([(7, (7, 0)), (most, (16, 0))]).collect::<Vec<_>>());
        sends_answer(&mut pair, (3, 1), &[(1, (7, 0)), (7, (7, 0))]);
        assert_eq!(pair.call(clear(2)), (0, 0), "another notice makes no room");
        sends_answer(&mut pair, (3, 1), &[(1, (7, 0))]);
        assert_eq!(pair.call(clear(3)), (0, most));
        sends_answer(&mut pair, (3, 1), &[(1, (0, 1)), (1, (16, 0))]);
    }
}

// Refusals and their order.

/// What a call may be refused for, in the order of the codes: 15, 1, 2, 16, 7.
#[derive(Clone, Copy, Debug)]
struct Causes {
    range: bool,
    length: bool,
    damage: bool,
    all_marked: bool,
    no_room: bool,
}

impl Causes {
    /// Every combination, so that each pair of causes stands at once, and each stands alone.
    fn all() -> impl Iterator<Item = Causes> {
        (0..32u32).map(|bits| {
            let [range, length, damage, all_marked, no_room] = [1, 2, 4, 8, 16].map(|bit| bits & bit != 0);
            Causes { range, length, damage, all_marked, no_room }
        })
    }

    /// 02's order. Clearing knows no 16 and no 7.
    fn code(self, clears: bool) -> u32 {
        let Causes { range, length, damage, all_marked, no_room } = self;
        let causes = [(range, 15), (length, 1), (damage, 2), (all_marked && !clears, 16), (no_room && !clears, 7)];
        causes.into_iter().find(|cause| cause.0).map_or(0, |cause| cause.1)
    }

    /// Words with these causes but for the range, for may_send of this notice and resident with this limit.
    fn words(self, rng: &mut Rng, (notice, resident, limit): (u32, u32, u32)) -> Vec<u32> {
        let marked = if self.all_marked { limit } else { limit - 1 };
        // Three keys besides, which are neighbours, so that a set is there in any case.
        let marks = (1..=marked).map(|attempt| key(notice, resident, attempt));
        let mut keys: Vec<u32> = marks.chain([key(notice, resident, 0), key(notice - 1, 8_191, 7), 5]).collect();
        keys.sort_unstable();
        let nodes = 2 * keys.len() - 1;
        let slots = nodes + if self.no_room { rng.below(2) } else { 2 + rng.below(3) };
        let (shape, weights) = (rng.pick(&SHAPES), rng.pick(&WEIGHTS));
        let mut words = grown(rng, slots, &keys, 2, shape, weights).words();
        if self.damage {
            let root = 4 * words[0] as usize;
            let (at, value) =
                rng.pick(&[(2, words[2] - 1), (3, 1), (3, 0), (0, 0), (1, words[0]), (root + 3, 2), (root + 3, 0), (root + 2, 0)]);
            words[at] = value;
        }
        if self.length {
            match rng.below(3) {
                0 => words.push(0),
                1 => drop(words.pop()),
                _ => words.resize(4 + 4 * (MOST_SLOTS + 1), 0),
            }
        }
        words
    }
}

/// Just outside each range and far outside; those among them that are in range when cut to 16 or 13 or 3 bits.
const NO_NOTICES: [u32; 7] = [0, 65_536, 65_537, 131_071, 1 << 31, u32::MAX - 65_535, u32::MAX];
const NO_RESIDENTS: [u32; 7] = [8_192, 8_193, 16_383, 65_535, 65_536, 1 << 29, u32::MAX];
const NO_LIMITS: [u32; 8] = [0, 8, 9, 15, 255, 257, 1 << 31, u32::MAX];

/// May_send with each argument in turn outside its range, the others as they are.
fn one_out_of_range((notice, resident, limit): (u32, u32, u32)) -> Vec<Call> {
    let notices = NO_NOTICES.map(|notice| send(notice, resident, limit));
    let residents = NO_RESIDENTS.map(|resident| send(notice, resident, limit));
    let limits = NO_LIMITS.map(|limit| send(notice, resident, limit));
    [&notices[..], &residents, &limits].concat()
}

#[test]
fn every_combination_of_causes_in_its_order() {
    let seen = seeded("causes", 30_000, 100, |rng, seen| {
        for causes in Causes::all() {
            let arguments = (rng.pick(&[1, 2, 4411, 65_535]), rng.pick(&[0, 1, 8_191]), rng.within(1, 7));
            let (notice, resident, limit) = arguments;
            let words = causes.words(rng, arguments);
            let sends = if causes.range { one_out_of_range(arguments) } else { vec![send(notice, resident, limit)] };
            for call in sends {
                assert_eq!(seen.ask(&words, call).0, causes.code(false), "{causes:?}: {call:?} on {words:?}");
            }
            for call in if causes.range { NO_NOTICES.map(clear).to_vec() } else { vec![clear(notice)] } {
                assert_eq!(seen.ask(&words, call).0, causes.code(true), "{causes:?}: {call:?} on {words:?}");
            }
        }
    });
    assert!([0, 1, 2, 7, 15, 16].iter().all(|&code| seen.sends[code] > 0), "{:?}", seen.sends);
    assert!([0, 1, 2, 15].iter().all(|&code| seen.clearings[code] > 0), "{:?}", seen.clearings);
}

/// Each argument at its ends, just outside and far outside, with each of the others; on sound, damaged and no words.
#[test]
fn arguments_at_the_ends_of_their_ranges() {
    let sound = Pair::prepared(9).words;
    let mut damaged = sound.clone();
    damaged[3] = 1;
    let notices = [1, 2, 65_534, 65_535].into_iter().chain(NO_NOTICES);
    let residents: Vec<u32> = [0, 1, 8_190, 8_191].into_iter().chain(NO_RESIDENTS).collect();
    let limits: Vec<u32> = LIMITS.chain(NO_LIMITS).collect();
    compared("arguments at their ends", |seen| {
        for notice in notices {
            for (words, code) in [(&sound[..], 0), (&damaged, 2), (&[], 1)] {
                let good_notice = (1..=65_535).contains(&notice);
                assert_eq!(seen.ask(words, clear(notice)), (if good_notice { code } else { 15 }, 0), "{notice}");
                for &resident in &residents {
                    for &limit in &limits {
                        let in_range = good_notice && resident <= 8_191 && (1..=7).contains(&limit);
                        let want = if in_range { (code, u32::from(code == 0)) } else { (15, 0) };
                        assert_eq!(seen.ask(words, send(notice, resident, limit)), want, "{notice}, {resident}, {limit}");
                    }
                }
            }
        }
    });
}

/// "pool length is not 4 + 4C", C from 1 to 16,383.
#[test]
fn lengths() {
    let lengths = (0..=20).chain([4_095, 4_096, 4_099, 4_100]).chain(65_531..=65_545).chain([131_076]);
    compared("lengths", |seen| {
        for len in lengths {
            let good = len % 4 == 0 && (8..=65_536).contains(&len);
            for word in [0, 1, u32::MAX] {
                for call in [send(1, 0, 1), send(65_535, 8_191, 7), clear(1), clear(65_535)] {
                    let code = if good { 2 } else { 1 };
                    assert_eq!(seen.ask(&vec![word; len], call), (code, 0), "{len} words of {word}");
                }
            }
        }
    });
}

// Random sequences.

/// Few notices and residents, so that calls meet each other's marks; the first and the last of each among them.
struct Town {
    notices: Vec<u32>,
    residents: Vec<u32>,
    limits: Vec<u32>,
    /// The most steps that a settle takes.
    budget: u32,
}

impl Town {
    fn some(rng: &mut Rng, limits: Vec<u32>) -> Town {
        let mut few = |from: &[u32]| {
            let mut of = from.to_vec();
            rng.shuffle(&mut of);
            of.truncate(1 + rng.below(3));
            of
        };
        Town { notices: few(&[1, 2, 3, 4411, 65_534, 65_535]), residents: few(&[0, 1, 2, 8_190, 8_191]), limits, budget: u32::MAX }
    }

    fn notice(&self, rng: &mut Rng) -> u32 {
        rng.pick(&self.notices)
    }

    fn send(&self, rng: &mut Rng) -> Call {
        send(self.notice(rng), rng.pick(&self.residents), rng.pick(&self.limits))
    }

    /// A mark; a key of attempt 0; or a neighbour of the notice's 65,536 keys, which is another notice's.
    fn any_key(&self, rng: &mut Rng) -> u32 {
        let (notice, resident) = (self.notice(rng), rng.pick(&self.residents));
        match rng.below(8) {
            0 => key(notice, resident, 0),
            1 => self.neighbour(rng),
            _ => key(notice, resident, rng.within(1, 7)),
        }
    }

    /// A pool full of such keys, or nearly so.
    fn crowd(&self, rng: &mut Rng, slots: usize, shape: Shape) -> Pair {
        let count = slots.div_ceil(2) - rng.below(20);
        let mut keys: Vec<u32> = (0..2 * count).map(|_| self.any_key(rng)).collect();
        keys.sort_unstable();
        keys.dedup();
        rng.shuffle(&mut keys);
        keys.truncate(count);
        keys.sort_unstable();
        let (level, weights) = (rng.pick(&[1, 5, 255]), rng.pick(&WEIGHTS));
        Pair::holding(grown(rng, slots, &keys, level, shape, weights))
    }

    /// No mark of the town's notices.
    fn neighbour(&self, rng: &mut Rng) -> u32 {
        let notice = self.notice(rng);
        let (first, last) = (key(notice, 0, 0), key(notice, 8_191, 7));
        let near = [first.wrapping_sub(1), first.wrapping_sub(7), last.wrapping_add(1), last.wrapping_add(2), first];
        let all: Vec<u32> = near.into_iter().filter(|&key| key % 8 == 0 || !self.notices.contains(&(key / 65_536))).collect();
        rng.pick(&all)
    }

    /// A command that moves no mark, but for steps and settles: its keys are neighbours'.
    fn harmless(&self, rng: &mut Rng, set: &Set) -> Command {
        match rng.below(10) {
            0 => Command::Search(self.any_key(rng)),
            1 => Command::Insert(self.neighbour(rng)),
            2 => Command::Delete(self.neighbour(rng)),
            3 => Command::Settle(rng.pick(&[0, 1, 3, 100, u32::MAX]).min(self.budget)),
            4 => Command::AtOrAbove(self.any_key(rng)),
            5 => Command::Count(self.any_key(rng), self.any_key(rng)),
            6 => {
                let key = self.neighbour(rng);
                Command::DeleteSpan(key, key)
            }
            7 => {
                // up to the next key of the set: marks may lie in the span, but none that is there
                let first = self.any_key(rng);
                match set.in_order().into_iter().find(|&there| there >= first) {
                    None => Command::DeleteSpan(first, u32::MAX),
                    Some(next) if next > first => Command::DeleteSpan(first, next - 1),
                    Some(_) => Command::DeleteSpan(first, 0),
                }
            }
            _ => step(rng, set),
        }
    }

    /// Marks come and go too.
    fn command(&self, rng: &mut Rng, set: &Set) -> Command {
        match rng.below(6) {
            0 | 1 => Command::Insert(self.any_key(rng)),
            2 => Command::Delete(self.any_key(rng)),
            3 => {
                let key = self.any_key(rng);
                Command::DeleteSpan(key, key.saturating_add(rng.within(0, 9)))
            }
            _ => self.harmless(rng, set),
        }
    }
}

const SMALL: [usize; 13] = [1, 2, 3, 4, 5, 7, 8, 9, 15, 16, 31, 63, 127];

/// Calls and commands of all kinds, restarts, and calls on a damaged copy, one at a time.
fn day(rng: &mut Rng, seen: &mut Seen, town: &Town, pair: &mut Pair, turns: usize) {
    for turn in 0..turns {
        match rng.below(40) {
            0 => seen.restart(pair),
            1 => {
                let arguments = (town.notice(rng), rng.pick(&town.residents), rng.pick(&town.limits));
                seen.call(pair, rng.pick(&one_out_of_range(arguments)));
                seen.call(pair, clear(rng.pick(&NO_NOTICES)));
            }
            2 | 3 => {
                seen.call(pair, clear(town.notice(rng)));
            }
            4..=18 => {
                let command = town.command(rng, &pair.twin);
                seen.run(pair, command);
            }
            19 => {
                let mut words = pair.words.clone();
                let at = rng.below(words.len());
                words[at] = words[at].wrapping_add(rng.pick(&[1, 2, u32::MAX, 1 << 16]));
                seen.ask(&words, town.send(rng));
                seen.ask(&words, clear(town.notice(rng)));
            }
            _ => {
                seen.call(pair, town.send(rng));
            }
        }
        if turn % 100 == 0 {
            pair.look();
        }
    }
}

#[test]
fn random_days() {
    let seen = seeded("days", 31_000, 300, |rng, seen| {
        for slots in SMALL {
            let town = Town::some(rng, LIMITS.collect());
            day(rng, seen, &town, &mut Pair::prepared(slots), 400);
        }
    });
    let often = |codes: &[u64], wanted: &[usize]| wanted.iter().all(|&code| codes[code] > 1000);
    assert!(share() > 1 || often(&seen.sends, &[0, 2, 7, 15, 16]) && often(&seen.clearings, &[0, 2, 15]), "each code is seen");
    assert!(share() > 1 || seen.attempts[1..].iter().all(|&yes| yes > 500), "each attempt is seen");
}

/// Large pools, full of other marks before the day begins, or nearly so.
#[test]
fn days_in_large_pools() {
    seeded("days in large pools", 36_000, 6, |rng, seen| {
        for slots in [255, LARGE - 1, LARGE] {
            let residents = (0..60).chain([8_191]).collect();
            let town = Town { notices: vec![1, 2, 65_535], residents, limits: LIMITS.collect(), budget: u32::MAX };
            let shape = rng.pick(&SHAPES);
            let mut pair = town.crowd(rng, slots, shape);
            day(rng, seen, &town, &mut pair, 200);
        }
    });
}

/// The same in pools of the most slots. Settle takes few steps: the twin looks at all slots after each.
#[test]
fn days_in_the_largest_pools() {
    let seen = roomy(|| {
        seeded("days in the largest pools", 37_000, 3, |rng, seen| {
            for shape in shared(SHAPES) {
                let residents = (0..560).chain([8_191]).collect();
                let town = Town { notices: vec![1, 2, 65_535], residents, limits: LIMITS.collect(), budget: 3 };
                let mut pair = town.crowd(rng, MOST_SLOTS, shape);
                day(rng, seen, &town, &mut pair, 60);
                // One notice's marks go, and there is room for others.
                let gone = seen.call(&mut pair, clear(2)).1;
                println!("compared a clearing of {gone} marks");
                seen.restart(&mut pair);
                day(rng, seen, &town, &mut pair, 20);
            }
        })
    });
    let often = |codes: &[u64], wanted: &[usize]| wanted.iter().all(|&code| codes[code] > 0);
    assert!(share() > 1 || often(&seen.sends, &[0, 2, 7, 15, 16]) && often(&seen.clearings, &[0, 2, 15]), "each code is seen");
}

/// Every pool that calls and some commands lead to from an empty one of few slots, and on each of them every call.
#[test]
fn every_small_pool_of_marks() {
    #[derive(Clone, Copy)]
    enum Move {
        Call(Call),
        Command(Command),
    }
    // The last key of one notice and the first mark of the next are neighbours but for that one's attempt 0.
    let people = [(1, 8_191), (2, 0)];
    let sends = people.iter().flat_map(|&(notice, resident)| [1, 2, 7].map(|limit| send(notice, resident, limit)));
    let calls = sends.chain([clear(1), clear(2), clear(3), send(2, 0, 8)]).map(Move::Call);
    let keys = [key(1, 8_191, 7), key(2, 0, 0), key(2, 0, 2)];
    let commands = keys.iter().flat_map(|&key| [Command::Insert(key), Command::Delete(key)]).chain([Command::Settle(u32::MAX)]);
    let moves: Vec<Move> = calls.chain(commands.map(Move::Command)).collect();
    let mut pools = 0;
    compared("every small pool of marks", |seen| {
        for slots in 1..=if share() == 1 { 7 } else { 5 } {
            pools += every_reached(slots, &moves, |pair, one| match one {
                Move::Call(call) => {
                    seen.call(pair, call);
                }
                Move::Command(command) => seen.run(pair, command),
            });
        }
    });
    println!("compared each of {} calls and commands on each of the {pools} pools of marks of few slots", moves.len());
}

// What 02 promises over sequences.

/// Yes answers by notice and resident since the notice was cleared last, and the largest limit used for them.
#[derive(Default)]
struct Counted(BTreeMap<(u32, u32), (u32, u32)>);

impl Counted {
    fn add(&mut self, call: Call, (code, number): Answer) {
        match call {
            Call::MaySend { notice, resident, limit } => {
                let (yes, largest) = self.0.entry((notice, resident)).or_default();
                *largest = limit.max(*largest);
                *yes += u32::from(code == 0);
                assert!(*yes <= *largest, "{yes} yes answers to {call:?}, with limits up to {largest}");
                // From an empty set, and with no mark but these: the attempts come in turn.
                assert!(code != 0 || number == *yes, "{call:?} gives attempt {number} as the yes number {yes}");
            }
            Call::Clear { notice } => {
                let of_notice = |&(one, _): &(u32, u32)| one == notice;
                let yes: u32 = self.0.iter().filter(|(of, _)| of_notice(of)).map(|(_, counted)| counted.0).sum();
                assert_eq!((code, number), (0, yes), "what is cleared is what was marked");
                self.0.retain(|of, _| !of_notice(of));
            }
        }
    }

    /// How many have got all that their limits allow.
    fn used_up(&self) -> usize {
        self.0.values().filter(|(yes, largest)| yes == largest).count()
    }
}

/// "Over any sequence of such calls with one limit and no clearing, from an empty set, each notice and resident get at most
/// that many yes answers." With other calls between, with clearing, which "starts that notice's count afresh", and with several
/// limits.
#[test]
fn never_more_than_the_limit() {
    let (mut used_up, mut full) = (0, 0);
    seeded("counts", 32_000, 200, |rng, seen| {
        for slots in [1, 3, 6, 9, 15, 31, 63, 127] {
            let one = rng.within(1, 7);
            let limits = if rng.one_in(2) { vec![one] } else { vec![one, rng.within(1, 7), rng.within(1, 7)] };
            let town = Town::some(rng, limits);
            let clears = rng.one_in(2);
            let mut pair = Pair::prepared(slots);
            let mut counted = Counted::default();
            for _ in 0..300 {
                match rng.below(16) {
                    0 if clears => {
                        let call = clear(town.notice(rng));
                        counted.add(call, seen.call(&mut pair, call));
                    }
                    1 => seen.restart(&mut pair),
                    2..=4 => {
                        let command = town.harmless(rng, &pair.twin);
                        seen.run(&mut pair, command);
                    }
                    _ => {
                        let call = town.send(rng);
                        let answer = seen.call(&mut pair, call);
                        counted.add(call, answer);
                        full += u32::from(answer.0 == 7);
                    }
                }
            }
            used_up += counted.used_up();
        }
    });
    println!(
        "compared counts: {used_up} of notice and resident ended with as many yes answers as their limits allow; no room {full} times"
    );
    assert!(share() > 1 || used_up > 100 && full > 1000, "limits and full pools are met");
}

/// The accident of 5:04: the set is full, and the sender asks again, 211 times, the gateway restarted in the middle. Who has a
/// yes left gets no text, and no one gets one again.
#[test]
fn a_full_pool_is_asked_211_times() {
    let mut rng = Rng::seeded("5:04", 33_000);
    let seen = compared("5:04", |seen| {
        for slots in [1, 2, 3, 8, 63, 127, LARGE] {
            for limit in LIMITS {
                let mut pair = Pair::prepared(slots);
                // Residents as long as there is room. The last may have fewer marks than the limit.
                let all = (0..).flat_map(|resident| (0..limit).map(move |_| send(504, resident, limit)));
                let yes = all.take_while(|&call| pair.call(call).0 == 0).count();
                assert_eq!(yes, slots.div_ceil(2), "as many marks as the pool holds");
                let mut before = pair.words.clone();
                for turn in 0..211 {
                    if turn == 105 {
                        seen.restart(&mut pair);
                        assert_eq!(held(&pair.words), held(&before));
                        before = pair.words.clone();
                    }
                    let (notice, resident) = (rng.pick(&[504, 504, 504, 505]), rng.within(0, yes as u32 / limit + 1));
                    let code = seen.call(&mut pair, send(notice, resident, limit)).0;
                    assert!(code == 7 || code == 16, "{code} in a full set");
                    // Marks were set resident by resident: with all attempts used are those before the last.
                    assert_eq!(code == 16, notice == 504 && resident < yes as u32 / limit, "resident {resident} of notice {notice}");
                    assert_eq!(pair.words, before);
                }
            }
        }
    });
    assert_eq!(by_code(&seen.sends).matches(':').count(), 2, "7 and 16, and nothing else");
}

// Clearing.

/// The keys at the edges of a notice, in order: its first and last marks, keys of attempt 0, and what lies just beside.
fn edge_keys(notice: u32) -> Vec<u32> {
    let first = i64::from(notice) * 65_536;
    let near = [
        -65_536, -65_535, -8, -2, -1, 0, 1, 2, 7, 8, 9, 32_768, 32_769, 65_520, 65_527, 65_528, 65_529, 65_534, 65_535, 65_536, 65_537,
        65_543, 131_071,
    ];
    near.iter().filter_map(|by| u32::try_from(first + by).ok()).collect()
}

#[test]
fn clearing_takes_the_notice_and_nothing_beside_it() {
    seeded("edges of a notice", 34_000, 20, |rng, seen| {
        for notice in [1, 2, 4411, 32_768, 65_534, 65_535] {
            for shape in SHAPES {
                for weights in WEIGHTS {
                    let mut keys = edge_keys(notice);
                    keys.retain(|_| !rng.one_in(4));
                    keys.push(5); // so that there is one in any case
                    keys.sort_unstable();
                    keys.dedup();
                    let slots = 2 * keys.len() - 1 + rng.below(4);
                    let level = rng.pick(&[1, 2, 3, 255]);
                    let level = if keys.len() == 1 { 0 } else { level };
                    let mut pair = Pair::holding(grown(rng, slots, &keys, level, shape, weights));
                    let (gone, left): (Vec<u32>, Vec<u32>) = keys.iter().partition(|&&key| is_mark_of(notice, key));
                    assert_eq!(seen.call(&mut pair, clear(notice)), (0, gone.len() as u32), "{keys:?}");
                    assert_eq!(held(&pair.words), left, "notice {notice} of {keys:?}");
                    pair.look();
                }
            }
        }
    });
}

/// Small pools and large ones, full of one notice's marks: the pool is empty after, and takes marks again.
#[test]
fn clearing_a_notice_that_fills_the_pool() {
    seeded("pools of one notice", 35_000, 4, |rng, seen| {
        for slots in [1, 2, 3, 7, 8, 63, 127, LARGE] {
            for shape in SHAPES {
                let notice = rng.pick(&[1, 4411, 65_535]);
                let count = slots.div_ceil(2);
                // As many marks, anywhere among the 57,344: seven of every eight keys.
                let mut keys: Vec<u32> = some_keys(rng, count, 57_343).iter().map(|mark| key(notice, mark / 7, 1 + mark % 7)).collect();
                let spare = slots > 1 && rng.one_in(4);
                if spare {
                    keys[0] = key(notice, Parts::of(keys[0]).resident, 0);
                }
                let level = if count == 1 { 0 } else { rng.pick(&[1, 9, 255]) };
                let weights = rng.pick(&WEIGHTS);
                let mut pair = Pair::holding(grown(rng, slots, &keys, level, shape, weights));
                let gone = count - usize::from(spare);
                assert_eq!(seen.call(&mut pair, clear(notice)), (0, gone as u32));
                assert_eq!(held(&pair.words), keys[..usize::from(spare)]);
                let room = slots > 2 || !spare;
                assert_eq!(seen.call(&mut pair, send(notice, *RESIDENTS.end(), 1)), if room { (0, 1) } else { (7, 0) });
            }
        }
    });
}

/// "starts that notice's count afresh": and no other's.
#[test]
fn clearing_starts_afresh() {
    let mut pair = Pair::prepared(63);
    let (last, other) = (*NOTICES.end(), *NOTICES.start());
    for turn in 0..3 {
        sends_answer(&mut pair, (last, 8_191), &[(3, (0, 1)), (3, (0, 2)), (3, (0, 3)), (3, (16, 0))]);
        sends_answer(&mut pair, (last, 0), &[(1, (0, 1)), (1, (16, 0))]);
        sends_answer(&mut pair, (other, 8_191), if turn == 0 { &[(1, (0, 1))] } else { &[(1, (16, 0))] });
        assert_eq!(pair.call(clear(last)), (0, 4));
    }
    assert_eq!(held(&pair.words), [key(other, 8_191, 1)]);
}
