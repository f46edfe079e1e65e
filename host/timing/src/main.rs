//! Nanoseconds of the library, of its cousin, and of what a user would pick instead: same machine, same input, all built
//! for release. In brackets, how many times a contestant's time the library takes.

mod limit;
mod picture;
mod sets;
mod sizes;

use chromatic::{Command, Kind};
use sets::{all, pools, Set, Work};
use std::hint::black_box;
use std::time::{Duration, Instant};

/// The keys of each table, and the slots that they are in.
const TABLES: [(usize, usize); 3] = [(64, 1023), (512, 1023), (8192, 16_383)];
/// Commands of a mix: so many that the processor does not learn the ways down by heart, as it would from 256 that repeat.
const MIX: usize = 64 * 256;
/// How long one contestant is timed at a stretch and how often, both at least, but no longer than the longest; and how many stretches it gets,
/// the others in between.
const SPELL: Duration = Duration::from_millis(30);
const ROUNDS: usize = 50;
const LONGEST_SPELL: Duration = Duration::from_millis(200);
const SPELLS: usize = 5;

/// Xorshift.
struct Rng(u64);

impl Rng {
    fn below(&mut self, end: usize) -> usize {
        self.0 ^= self.0 << 13;
        self.0 ^= self.0 >> 7;
        self.0 ^= self.0 << 17;
        (self.0 >> 16) as usize % end
    }

    fn shuffled(&mut self, keys: &[u32]) -> Vec<u32> {
        let mut keys = keys.to_vec();
        for i in (1..keys.len()).rev() {
            keys.swap(i, self.below(i + 1));
        }
        keys
    }
}

/// The nanoseconds of one run; the clock's own are in there, some 20.
fn clocked(set: &mut dyn Set, timed: impl Fn(&mut dyn Set) -> u64) -> f64 {
    let begun = Instant::now();
    black_box(timed(set));
    begun.elapsed().as_nanos() as f64
}

/// Adds to `samples` for one spell what `sample` measures.
fn spell(samples: &mut Vec<f64>, mut sample: impl FnMut() -> f64) {
    let started = Instant::now();
    for round in 1.. {
        samples.push(sample());
        if started.elapsed() > if round >= ROUNDS { SPELL } else { LONGEST_SPELL } {
            break;
        }
    }
}

/// The lower quartile: most samples that lie above it met something else that the machine had to do.
fn typical(samples: &mut [f64]) -> f64 {
    samples.sort_by(f64::total_cmp);
    samples[samples.len() / 4]
}

/// One line: each contestant's time and its ratio.
fn line(what: &str, times: &[(&str, f64)]) {
    let library = times[0].1;
    let ratio = |ns: f64| if ns > 0.0 { format!(" ({:.2})", library / ns) } else { String::new() };
    let cell = |(i, (name, ns)): (usize, &(&str, f64))| format!("{name} {ns:.1}{}", if i == 0 { String::new() } else { ratio(*ns) });
    let cells: Vec<String> = times.iter().enumerate().map(cell).collect();
    println!("{what:38} {}", cells.join("  "));
}

/// What is timed, after something that is not.
struct Race<'a> {
    what: &'a str,
    before: &'a Work,
    work: &'a Work,
    /// What the time is divided by.
    units: usize,
    /// Takes a pool's audits off, which each call begins with.
    net: bool,
}

/// Times a unit of the race's work. All sets hold the same keys before and after: `home` inserts what may be gone.
fn race(sets: &mut [Box<dyn Set>], home: &Work, race: Race) {
    let Race { what, before, work, units, net } = race;
    let empty = Work::empty_calls(work.calls());
    let again = |set: &mut dyn Set| {
        set.restore();
        set.run(before);
    };
    let sample = |set: &mut dyn Set, work: &Work| {
        again(set);
        clocked(set, |set| set.run(work))
    };
    sets.iter_mut().for_each(|set| set.keep());
    let mut samples = vec![(vec![], vec![]); sets.len()];
    for _ in 0..SPELLS {
        for (set, (works, audits)) in sets.iter_mut().zip(&mut samples) {
            // An audit's time depends on what the processor has learned of the pool, so as many of them are timed in turn with the work, after
            // the same things. Each has its own lower quartile: that of the differences would be where the audits met something else.
            spell(works, || {
                audits.push(if net && set.pooled().is_some() { sample(set.as_mut(), &empty) } else { 0.0 });
                sample(set.as_mut(), work)
            });
        }
    }
    let mut good = vec![];
    for set in sets.iter_mut() {
        again(set.as_mut());
        good.push(set.run(work));
        set.restore();
        set.run(home);
    }
    assert!(good.iter().all(|&g| g == good[0]), "{what}: the contestants do not agree: {good:?}");
    let mut times = vec![];
    for (set, (works, audits)) in sets.iter().zip(&mut samples) {
        times.push((set.name(), (typical(works) - typical(audits)) / units as f64));
    }
    line(what, &times);
}

/// What only pools have, in nanoseconds a call.
fn race_pools(what: &str, sets: &mut [Box<dyn Set>], call: fn(&mut dyn Set) -> u64) {
    race_calls(what, sets, |_| (), call);
}

/// The same with something before each call that is not timed.
fn race_calls(what: &str, sets: &mut [Box<dyn Set>], before: impl Fn(&mut dyn Set), call: impl Fn(&mut dyn Set) -> u64) {
    let mut pools: Vec<_> = sets.iter_mut().filter(|set| set.pooled().is_some()).map(|set| (set, vec![])).collect();
    let sample = |set: &mut dyn Set| {
        before(set);
        clocked(set, &call)
    };
    for _ in 0..SPELLS {
        pools.iter_mut().for_each(|(set, samples)| spell(samples, || sample(set.as_mut())));
    }
    let times: Vec<_> = pools.iter_mut().map(|(set, samples)| (set.name(), typical(samples))).collect();
    line(what, &times);
}

/// So many ascending keys, far enough apart for others between them.
fn spread(count: usize) -> Vec<u32> {
    (0..count as u32).map(|i| i * 997 + 13).collect()
}

fn each(keys: &[u32], command: fn(u32) -> Command) -> Vec<Command> {
    keys.iter().map(|&key| command(key)).collect()
}

fn search(key: u32) -> Command {
    Command::Search { key }
}

fn insert(key: u32) -> Command {
    Command::Insert { key }
}

fn delete(key: u32) -> Command {
    Command::Delete { key }
}

/// Commands that leave the same keys: in turns a delete, a search, and the insert of what was deleted.
fn turns(rng: &mut Rng, keys: &[u32]) -> Vec<Command> {
    let mut commands = vec![];
    while commands.len() + 3 <= MIX {
        let key = keys[rng.below(keys.len())];
        commands.extend([delete(key), search(keys[rng.below(keys.len())]), insert(key)]);
    }
    commands
}

/// A settle that takes so many steps, if there are as many.
fn settle(budget: usize) -> Work {
    Work::new(vec![Command::Settle { budget: u32::try_from(budget).unwrap_or(u32::MAX) }], 1)
}

/// The steps of a settle to the end.
fn steps_to_the_end(words: &[u32]) -> usize {
    let mut answer = [0; 2];
    cousin::batch(&mut words.to_vec(), &[5, 0xFF, 0xFF, 0xFF, 0xFF, 0x0F], &mut answer);
    answer[1] as usize
}

/// Up to 256 steps, one after the other, from a pool's first allowed one.
fn steps_from(words: &[u32]) -> Vec<Command> {
    let mut words = words.to_vec();
    let mut steps = vec![];
    while steps.len() < 256 {
        let (slot, number) = cousin::first_allowed(&words);
        if slot == 0 {
            break;
        }
        let step = Command::Step { slot, kind: Kind::try_from(number).expect("a kind") };
        steps.push(step);
        cousin::batch(&mut words, &[5, 1], &mut [0; 2]);
    }
    steps
}

fn table(count: usize, slots: usize) {
    let mut rng = Rng(88_172_645_463_325_252);
    let spread = spread(count);
    let keys = rng.shuffled(&spread);
    let mut sets = all(slots);
    let fill = Work::new(each(&keys, insert), 256);
    sets.iter_mut().for_each(|set| assert_eq!(set.run(&fill), count as u64, "{}", set.name()));
    let nothing = Work::new(vec![], 1);
    println!("{count} keys in {slots} slots, ns each");

    let unsettled = sets[0].pooled().expect("the library is first").words.clone();
    let steps = Work::new(steps_from(&unsettled), 256);
    let what = format!("step, in a batch of {} (net)", steps.len());
    race(&mut sets[..2], &nothing, Race { what: &what, before: &nothing, work: &steps, units: steps.len(), net: true });
    // A settle of the same steps; and where it does not end with them, the whole, for later steps scan further.
    let what = format!("settle, a step of {} with its scan (net)", steps.len());
    race(&mut sets[..2], &nothing, Race { what: &what, before: &nothing, work: &settle(steps.len()), units: steps.len(), net: true });
    let whole = steps_to_the_end(&unsettled);
    if whole > steps.len() {
        let what = format!("settle to the end, a step of {whole} with its scan (net)");
        race(&mut sets[..2], &nothing, Race { what: &what, before: &nothing, work: &settle(whole), units: whole, net: true });
    }
    sets[..2].iter_mut().for_each(|set| {
        set.run(&settle(whole));
    });

    // One batch of them: the audits of more would meet other trees than those that are taken off.
    let moved = &rng.shuffled(&keys)[..(count / 2).min(256)];
    let share = if 2 * moved.len() == count { "half".to_string() } else { moved.len().to_string() };
    let (gone, back) = (Work::new(each(moved, delete), 256), Work::new(each(moved, insert), 256));
    let some: Vec<u32> = (0..MIX).map(|_| keys[rng.below(count)]).collect();
    let searches = Work::new(each(&some, search), 256);
    race(
        &mut sets,
        &back,
        Race { what: "search, in a batch of 256 (net)", before: &nothing, work: &searches, units: searches.len(), net: true },
    );
    let what = format!("insert, {share} of the keys (net)");
    race(&mut sets, &back, Race { what: &what, before: &gone, work: &back, units: back.len(), net: true });
    let what = format!("delete, {share} of the keys (net)");
    race(&mut sets, &back, Race { what: &what, before: &back, work: &gone, units: gone.len(), net: true });
    if count > SPANNED {
        span_rows(&mut sets[..3], &mut rng, &spread);
    }
    let commands = turns(&mut rng, &keys);
    for size in [1, 16, 256] {
        // A call of one command is mostly audit, and takes long enough with fewer of them.
        let work = Work::new(commands[..if size == 1 { 255 } else { commands.len() }].to_vec(), size);
        let what = format!("command in batches of {size}, all told");
        race(&mut sets, &back, Race { what: &what, before: &nothing, work: &work, units: work.len(), net: false });
    }
    race_pools("audit, a call", &mut sets, |set| set.pooled().map_or(0, |p| u64::from((p.audit)(black_box(&p.words)))));
    race_pools("report's seventh number, a call", &mut sets, |set| set.pooled().map_or(0, |p| (p.report)(black_box(&p.words), 7)));
    saved_rows(&keys, slots);
    ledger_rows(&mut rng, count, slots);
}

/// Keys that the spans of a row have together, at most, and those that each of them has.
const SPANNED: usize = 256;
const SPANS: [usize; 3] = [1, 16, SPANNED];

/// Operations 6 to 8 of the pools and the BTreeSet, which hold these ascending keys: `range(key..).next()`, `range(first..=last).count()`, and
/// for a delete the range collected and each of its keys removed.
fn span_rows(sets: &mut [Box<dyn Set>], rng: &mut Rng, keys: &[u32]) {
    let nothing = Work::new(vec![], 1);
    // The key itself, or one that is not there a little below it.
    let near = |rng: &mut Rng, at: usize| keys[at] - rng.below(13) as u32;
    let next_key = |_| {
        let at = rng.below(keys.len());
        Command::AtOrAbove { key: near(rng, at) }
    };
    let next = Work::new((0..MIX).map(next_key).collect(), 256);
    let what = "at_or_above, in a batch of 256 (net)";
    race(sets, &nothing, Race { what, before: &nothing, work: &next, units: next.len(), net: true });
    for size in SPANS {
        let spans = (MIX / size).max(256);
        let places: Vec<usize> = (0..spans).map(|_| rng.below(keys.len() - size + 1)).collect();
        let counts = places.iter().map(|&at| Command::Count { first: near(rng, at), last: keys[at + size - 1] }).collect();
        let counts = Work::new(counts, 256);
        let what = format!("count, {size} of {} keys, a span (net)", keys.len());
        race(sets, &nothing, Race { what: &what, before: &nothing, work: &counts, units: spans, net: true });
    }
    for size in SPANS {
        // Every second span of so many keys.
        let spans: Vec<&[u32]> = keys.chunks(size).step_by(2).take(SPANNED / size).collect();
        let deletes = spans.iter().map(|span| Command::DeleteSpan { first: span[0], last: span[span.len() - 1] }).collect();
        let (deletes, back) = (Work::new(deletes, 256), Work::new(each(&spans.concat(), insert), 256));
        let what = format!("delete_span, {size} of {} keys, a span (net)", keys.len());
        race(sets, &back, Race { what: &what, before: &back, work: &deletes, units: spans.len(), net: true });
    }
}

/// Both pools with these keys, inserted in this order and settled.
fn settled_pools(keys: &[u32], slots: usize) -> Vec<Box<dyn Set>> {
    let mut sets = pools(slots);
    let (fill, settle) = (Work::new(each(keys, insert), 256), settle(usize::MAX));
    for set in sets.iter_mut() {
        assert_eq!(set.run(&fill), keys.len() as u64, "{}", set.name());
        assert_eq!(set.run(&settle), 1, "{}", set.name());
    }
    sets
}

/// Save and load, of as many keys as the table has, each key and router five bytes long.
fn saved_rows(keys: &[u32], slots: usize) {
    let longest: Vec<u32> = keys.iter().map(|&key| key | 1 << 28).collect();
    let mut sets = settled_pools(&longest, slots);
    let bytes: Vec<u64> = sets.iter_mut().map(|set| set.save()).collect();
    race_pools(&format!("save, a call, {} bytes", bytes[0]), &mut sets, |set| set.save());
    race_pools(&format!("load, a call, {} bytes", bytes[0]), &mut sets, |set| set.load());
    let nodes: Vec<u64> = sets.iter_mut().map(|set| set.load()).collect();
    let all = 2 * keys.len() as u64 - 1;
    assert!(bytes == [bytes[0]; 2] && nodes == [all; 2], "the contestants do not agree: {bytes:?}, {nodes:?}");
}

/// The notice of the ledger's rows, and residents of whom none, six and all seven attempts are marked.
const NOTICE: u32 = 4411;
const FRESH: u32 = 700;
const ONE_LEFT: u32 = 701;
const ALL_USED: u32 = 702;

fn mark(notice: u32, resident: u32, attempt: u32) -> u32 {
    notice * 65_536 + resident * 8 + attempt
}

/// First attempts of twenty other notices, as many before as after, and of residents that differ.
fn marks_of_others(count: usize) -> Vec<u32> {
    let notice = |i: u32| if i % 2 == 0 { NOTICE - 1 - i % 20 / 2 } else { NOTICE + 1 + i % 20 / 2 };
    (0..count as u32).map(|i| mark(notice(i), i / 20 * 37 % 8192, 1)).collect()
}

/// A call of the ledger, by the name of its row, and what it must answer.
struct Asked<'a> {
    what: &'a str,
    call: &'a dyn Fn(&mut dyn Set) -> u64,
    want: u64,
}

/// Times each call, all told, on the pools of these keys as they are before it: neither call settles, and both change them.
fn race_ledger(keys: &[u32], slots: usize, asked: &[Asked]) {
    let mut sets = settled_pools(keys, slots);
    sets.iter_mut().for_each(|set| set.keep());
    for Asked { what, call, want } in asked {
        race_calls(&format!("{what}, a call"), &mut sets, |set| set.restore(), call);
        for set in sets.iter_mut() {
            set.restore();
            assert_eq!(call(set.as_mut()), *want, "{what}: {}", set.name());
        }
    }
}

/// May_send and clear_notice, of as many keys as the table has.
fn ledger_rows(rng: &mut Rng, count: usize, slots: usize) {
    let mut among_others = |mine: Vec<u32>, most: usize| {
        let others = marks_of_others(most - mine.len());
        rng.shuffled(&[mine, others].concat())
    };
    let marked = |resident, attempts| (1..=attempts).map(move |attempt| mark(NOTICE, resident, attempt));
    // One key fewer than the table has: 512 keys fill 1,023 slots, which then take no mark, and 8,192 fill 16,383.
    let keys = among_others(marked(ONE_LEFT, 6).chain(marked(ALL_USED, 7)).collect(), count - 1);
    race_ledger(
        &keys,
        slots,
        &[
            Asked { what: "may_send, a new mark", call: &|set| set.may_send(NOTICE, FRESH, 1), want: 1 },
            Asked { what: "may_send, limit 7, six marked", call: &|set| set.may_send(NOTICE, ONE_LEFT, 7), want: 7 },
            Asked { what: "may_send, limit 7, all used", call: &|set| set.may_send(NOTICE, ALL_USED, 7), want: 16 << 32 },
        ],
    );
    for marks in [0, 1, 16, 256].into_iter().filter(|&marks| marks < count) {
        let keys = among_others((0..marks as u32).map(|i| mark(NOTICE, 31 * i, 1)).collect(), count);
        let what = format!("clear_notice, {marks} of {count} keys");
        race_ledger(&keys, slots, &[Asked { what: &what, call: &|set| set.clear_notice(NOTICE), want: marks as u64 }]);
    }
}

const CHAINED_SLOTS: u32 = 1023;

/// The saved form of (C + 1) / 2 keys in C slots: half of them in a chain to the left below the root, half in one to the right, every inner
/// edge red, every leaf of weight `level`. Of 1,023 slots it is 256 edges from the root to the first leaf and to the last. The root is slot 1,
/// and kind 1's condition holds there.
fn two_chains(slots: u32, level: u32) -> Vec<u8> {
    let keys = slots.div_ceil(2);
    let half = keys / 2;
    let (red, leaf) = (1, 2 * level);
    let mut numbers = vec![slots, 2 * keys - 1, 3, half - 1];
    (0..half - 1).rev().for_each(|router| numbers.extend([red, router]));
    (0..half).for_each(|key| numbers.extend([leaf, key]));
    (half..keys - 1).for_each(|key| numbers.extend([red, key, leaf, key]));
    numbers.extend([leaf, keys - 1]);
    let mut bytes = vec![];
    for mut number in numbers {
        while number >= 0x80 {
            bytes.push(number as u8 | 0x80);
            number >>= 7;
        }
        bytes.push(number as u8);
    }
    bytes
}

/// The greatest L. There kind 1 at the root is refused, and settle passes it by.
const MOST_LEVEL: u32 = 255;

/// What asks for L, far from every leaf but two: kind 1 at the root, in a step and in settle's scan, and the report; and beside them what
/// does not ask for it.
fn level_rows() {
    let mut sets = pools(CHAINED_SLOTS as usize);
    let saved = two_chains(CHAINED_SLOTS, MOST_LEVEL);
    for set in sets.iter_mut() {
        assert_eq!(set.load_from(&saved), CHAINED_SLOTS.into(), "{}", set.name());
        assert_eq!(set.pooled().map(|p| (p.report)(&p.words, 2)), Some(MOST_LEVEL.into()), "{}", set.name());
    }
    println!("512 keys in {CHAINED_SLOTS} slots, in two chains, L = {MOST_LEVEL}, ns each");
    let nothing = Work::new(vec![], 1);
    for (what, kind) in [("step, kind 1 at the root, code 11 (net)", Kind::One), ("step, kind 2 at the root, code 10 (net)", Kind::Two)] {
        let steps = Work::new(vec![Command::Step { slot: 1, kind }; 256], 256);
        race(&mut sets, &nothing, Race { what, before: &nothing, work: &steps, units: steps.len(), net: true });
    }
    let what = "settle, a step of 256 with its scan (net)";
    race(&mut sets, &nothing, Race { what, before: &nothing, work: &settle(256), units: 256, net: true });
    race_pools("report's first number, a call", &mut sets, |set| set.pooled().map_or(0, |p| (p.report)(black_box(&p.words), 1)));
    race_pools("report's second number, a call", &mut sets, |set| set.pooled().map_or(0, |p| (p.report)(black_box(&p.words), 2)));
}

/// What `host/bench` hands on: `--sizes`, for the cost by size and the audit's limit in place of the other tables, and `--picture FILE`.
fn main() {
    let (mut sizes, mut picture) = (false, None);
    let mut words = std::env::args().skip(1);
    while let Some(word) = words.next() {
        match word.as_str() {
            "--sizes" => sizes = true,
            "--picture" => picture = words.next(),
            _ => panic!("{word} is not known"),
        }
    }
    println!("in brackets: the library's time divided by that contestant's");
    println!("net: the audit that begins every call of a pool is taken off; all told: it is counted");
    if sizes {
        return by_size(picture);
    }
    for (keys, slots) in TABLES {
        table(keys, slots);
    }
    level_rows();
}

fn by_size(picture: Option<String>) {
    let rows = sizes::table();
    limit::table();
    if let Some(file) = picture {
        std::fs::write(&file, picture::svg(&rows)).unwrap_or_else(|why| panic!("{file} is not written: {why}"));
        println!("cost by size, drawn: {file}");
    }
}
