//! What calls cost by the size of the pool: C slots, filled with (C + 1) / 2 keys.

use crate::sets::{pools, Set, Work};
use crate::{clocked, delete, each, insert, settle, spread, steps_to_the_end, two_chains, Rng, MOST_LEVEL};
use std::hint::black_box;
use std::time::{Duration, Instant};

pub const SIZES: [usize; 5] = [63, 255, 1023, 4095, 16_383];

/// A contestant has so many spells, the others in between, each of one sample at least and no shorter than this; after a sample that takes too
/// long it has had its only one.
const SPELLS: usize = 5;
const SPELL: Duration = Duration::from_millis(40);
const TOO_LONG: f64 = 2e9;

/// Nanoseconds a unit, by contestant and size.
pub struct Row {
    pub name: &'static str,
    /// "slot" or "step".
    pub unit: &'static str,
    pub lines: Vec<Line>,
    /// Steps of a settle, by size.
    steps: Vec<usize>,
}

pub struct Line {
    pub contestant: &'static str,
    pub ns: Vec<f64>,
}

/// The contestants' times at one size, and what they are divided by.
struct Timed {
    ns: Vec<(&'static str, f64)>,
    units: usize,
}

/// A run longer than this has other programs in it on a busy machine: there the processor's time counts, and not the clock's.
const LONG: f64 = 1e6;

/// The processor's time for this thread, in nanoseconds.
fn spent() -> f64 {
    #[repr(C)]
    #[derive(Default)]
    struct Time {
        seconds: i64,
        nanoseconds: i64,
    }
    extern "C" {
        fn clock_gettime(clock: i32, time: *mut Time) -> i32;
    }
    const THREAD: i32 = 3; // Linux's CLOCK_THREAD_CPUTIME_ID
    let mut time = Time::default();
    // SAFETY: of the C library, on a 64-bit Linux; it writes the two numbers.
    assert_eq!(unsafe { clock_gettime(THREAD, &mut time) }, 0);
    time.seconds as f64 * 1e9 + time.nanoseconds as f64
}

/// The nanoseconds of one run.
fn sampled(set: &mut dyn Set, run: impl Fn(&mut dyn Set) -> u64) -> f64 {
    let begun = spent();
    let ns = clocked(set, run);
    if ns > LONG {
        spent() - begun
    } else {
        ns
    }
}

/// The least that `sample` measures of each set.
fn least(sets: &mut [Box<dyn Set>], sample: impl Fn(&mut dyn Set) -> f64) -> Vec<(&'static str, f64)> {
    let mut least: Vec<_> = sets.iter().map(|set| (set.name(), f64::INFINITY)).collect();
    for round in 0..SPELLS {
        for (set, (_, ns)) in sets.iter_mut().zip(&mut least).filter(|(_, (_, ns))| round == 0 || *ns < TOO_LONG) {
            let started = Instant::now();
            while started.elapsed() < SPELL {
                *ns = ns.min(sample(set.as_mut()));
            }
        }
    }
    least
}

/// A call that changes nothing, in nanoseconds: of so many one after the other, so that the clock's own do not count.
fn calls(sets: &mut [Box<dyn Set>], slots: usize, call: fn(&mut dyn Set) -> u64) -> Timed {
    let many = SIZES[SIZES.len() - 1] / slots;
    let ns = least(sets, |set| sampled(set, |set| (0..many).map(|_| call(set)).sum()));
    Timed { ns, units: many * slots }
}

/// A settle to the end of the pools as they are, the audit taken off. It leaves them settled.
fn settles(sets: &mut [Box<dyn Set>]) -> Timed {
    sets.iter_mut().for_each(|set| set.keep());
    let words = |set: &dyn Set| set.pooled().map(|pool| pool.words.clone());
    let steps = steps_to_the_end(&words(sets[0].as_ref()).expect("a pool"));
    let timed = |work: Work| {
        move |set: &mut dyn Set| {
            set.restore();
            sampled(set, |set| set.run(&work))
        }
    };
    let audits = least(sets, timed(Work::empty_calls(1)));
    let mut ns = least(sets, timed(settle(steps)));
    assert!(words(sets[0].as_ref()) == words(sets[1].as_ref()), "the contestants do not agree");
    ns.iter_mut().zip(&audits).for_each(|((_, ns), (_, audit))| *ns -= audit);
    Timed { ns, units: steps }
}

fn run(sets: &mut [Box<dyn Set>], work: &Work) {
    sets.iter_mut().for_each(|set| assert_eq!(set.run(work), work.len() as u64, "{}", set.name()));
}

/// All rows at one size, in this order.
const ROWS: [(&str, &str); 5] = [
    ("audit", "slot"),
    ("report's seventh number", "slot"),
    ("settle after random inserts", "step"),
    ("settle after random deletes", "step"),
    ("settle of two chains of heavy leaves", "step"),
];

fn at_size(slots: usize) -> [Timed; 5] {
    let mut rng = Rng(88_172_645_463_325_252);
    let keys = rng.shuffled(&spread(slots.div_ceil(2)));
    let mut sets = pools(slots);
    run(&mut sets, &Work::new(each(&keys, insert), 256));
    let after_inserts = settles(&mut sets);
    let audit = calls(&mut sets, slots, |set| set.pooled().map_or(0, |p| u64::from((p.audit)(black_box(&p.words)))));
    let report = calls(&mut sets, slots, |set| set.pooled().map_or(0, |p| (p.report)(black_box(&p.words), 7)));
    run(&mut sets, &Work::new(each(&rng.shuffled(&keys)[..keys.len() / 2], delete), 256));
    let after_deletes = settles(&mut sets);
    let saved = two_chains(slots as u32, MOST_LEVEL);
    sets.iter_mut().for_each(|set| assert_eq!(set.load_from(&saved), slots as u64, "{}", set.name()));
    [audit, report, after_inserts, after_deletes, settles(&mut sets)]
}

/// Times all and prints them.
pub fn table() -> Vec<Row> {
    println!("cost by size: C slots, filled with (C + 1) / 2 keys; the least time of some, in brackets the library's divided by it");
    println!("audit and report of a settled set, all told, ns a slot; settle to the end (net), ns a step, and how many steps:");
    println!("of keys inserted in random order; of a settled set that lost a random half of its keys; of two chains with leaves of weight {MOST_LEVEL}");
    let mut rows: Vec<Row> = ROWS.iter().map(|&(name, unit)| Row { name, unit, lines: vec![], steps: vec![] }).collect();
    for slots in SIZES {
        for (row, timed) in rows.iter_mut().zip(at_size(slots)) {
            for (i, (contestant, ns)) in timed.ns.into_iter().enumerate() {
                if row.lines.len() == i {
                    row.lines.push(Line { contestant, ns: vec![] });
                }
                row.lines[i].ns.push(ns / timed.units as f64);
            }
            row.steps.push(timed.units);
        }
    }
    print_line("C", "", SIZES.map(|slots| slots.to_string()));
    rows.iter().for_each(print_row);
    rows
}

fn print_line(what: &str, contestant: &str, cells: impl IntoIterator<Item = String>) {
    let cells: String = cells.into_iter().map(|cell| format!(" {cell:>15}")).collect();
    println!("{what:47} {contestant:7}{cells}");
}

fn print_row(row: &Row) {
    let library = &row.lines[0].ns;
    for (i, Line { contestant, ns }) in row.lines.iter().enumerate() {
        let ratio = |of: f64, ns: f64| if i == 0 { String::new() } else { format!(" ({:.2})", of / ns) };
        let cells = library.iter().zip(ns).map(|(of, ns)| format!("{ns:.1}{}", ratio(*of, *ns)));
        print_line(&if i == 0 { format!("{}, ns a {}", row.name, row.unit) } else { String::new() }, contestant, cells);
    }
    if row.unit == "step" {
        print_line("", "steps", row.steps.iter().map(usize::to_string));
    }
}
