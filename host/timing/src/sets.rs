//! The contestants: each runs the same work and says how many commands succeeded.

use chromatic::{Batch, Command};
use std::collections::BTreeSet;
use std::hint::black_box;

/// Commands, as every contestant wants them.
pub struct Work {
    commands: Vec<Command>,
    #[cfg_attr(not(feature = "cpp"), allow(dead_code))]
    operations: Vec<u32>,
    #[cfg_attr(not(feature = "cpp"), allow(dead_code))]
    keys: Vec<u32>,
    /// Each batch's bytes, and its number of commands.
    batches: Vec<(Vec<u8>, usize)>,
}

impl Work {
    pub fn new(commands: Vec<Command>, per_batch: usize) -> Work {
        let batches = commands.chunks(per_batch).map(|some| (bytes_of(some), some.len())).collect();
        let (operations, keys) = commands.iter().map(|c| number_and_key(*c)).unzip();
        Work { commands, operations, keys, batches }
    }

    /// So many calls without commands: for a pool, audits.
    pub fn empty_calls(calls: usize) -> Work {
        Work { commands: vec![], operations: vec![], keys: vec![], batches: vec![(vec![], 0); calls] }
    }

    pub fn len(&self) -> usize {
        self.commands.len()
    }

    pub fn calls(&self) -> usize {
        self.batches.len()
    }
}

fn number_and_key(command: Command) -> (u32, u32) {
    match command {
        Command::Search { key } => (1, key),
        Command::Insert { key } => (2, key),
        Command::Delete { key } => (3, key),
        Command::Step { slot, .. } => (4, slot),
        Command::Settle { budget } => (5, budget),
        Command::AtOrAbove { key } => (6, key),
        Command::Count { first, .. } => (7, first),
        Command::DeleteSpan { first, .. } => (8, first),
        other => unreachable!("{other:?} is not timed"),
    }
}

fn bytes_of(commands: &[Command]) -> Vec<u8> {
    let mut batch = Batch::new();
    commands.iter().for_each(|&c| batch.push(c).expect("at most 256 in a batch"));
    let mut bytes = [0; Batch::LONGEST];
    let len = batch.write(&mut bytes);
    bytes[..len].to_vec()
}

pub trait Set {
    fn name(&self) -> &'static str;
    fn run(&mut self, work: &Work) -> u64;
    /// What cannot be undone by commands: a pool's shape.
    fn keep(&mut self) {}
    fn restore(&mut self) {}
    /// The pool's functions, for what only a pool has.
    fn pooled(&self) -> Option<&Pooled> {
        None
    }
    /// Saves the set as bytes; gives what the call does. Of a pool only.
    fn save(&mut self) -> u64 {
        unreachable!("{} is not saved", self.name())
    }
    /// Loads the bytes that were saved last.
    fn load(&mut self) -> u64 {
        unreachable!("{} is not loaded", self.name())
    }
    /// Loads these.
    fn load_from(&mut self, _saved: &[u8]) -> u64 {
        unreachable!("{} is not loaded", self.name())
    }
    /// Asks whether a text may go, and marks it. Of a pool only, as the next.
    fn may_send(&mut self, _notice: u32, _resident: u32, _limit: u32) -> u64 {
        unreachable!("{} is no ledger", self.name())
    }
    fn clear_notice(&mut self, _notice: u32) -> u64 {
        unreachable!("{} is no ledger", self.name())
    }
}

/// A pool and the functions that work on it: the library's or the cousin's.
pub struct Pooled {
    pub name: &'static str,
    pub words: Vec<u32>,
    kept: Vec<u32>,
    pub audit: fn(&[u32]) -> u32,
    pub report: fn(&[u32], u32) -> u64,
    batch: fn(&mut [u32], &[u8], &mut [u32]) -> u64,
    save: fn(&[u32], &mut [u8]) -> u64,
    load: fn(&mut [u32], &[u8]) -> u64,
    may_send: fn(&mut [u32], u32, u32, u32) -> u64,
    clear_notice: fn(&mut [u32], u32) -> u64,
    /// Room for any form, and the bytes saved last at its beginning.
    room: Vec<u8>,
    saved: usize,
}

/// An empty pool over the functions of one crate, the library's or the cousin's.
macro_rules! pooled {
    ($name:literal, $slots:ident, $($from:ident)::+) => {{
        use $($from)::+::{audit, batch, clear_notice, load, may_send, prepare, report, save};
        let mut words = vec![0; chromatic::Pool::words_for($slots)];
        assert_eq!(prepare(&mut words), 0, $name);
        let room = vec![0; chromatic::Pool::saved_bytes_for($slots)];
        Pooled { name: $name, words, kept: vec![], audit, report, batch, save, load, may_send, clear_notice, room, saved: 0 }
    }};
}

impl Pooled {
    pub fn library(slots: usize) -> Pooled {
        pooled!("library", slots, chromatic::raw)
    }

    pub fn cousin(slots: usize) -> Pooled {
        pooled!("cousin", slots, cousin)
    }
}

impl Set for Pooled {
    fn name(&self) -> &'static str {
        self.name
    }

    fn run(&mut self, work: &Work) -> u64 {
        let mut answers = [0; 512];
        let mut good = 0;
        for (bytes, commands) in &work.batches {
            assert_eq!((self.batch)(&mut self.words, bytes, &mut answers), 0);
            good += answers[..2 * commands].chunks(2).filter(|a| a[0] == 0).count() as u64;
        }
        good
    }

    fn keep(&mut self) {
        self.kept = self.words.clone();
    }

    fn restore(&mut self) {
        self.words.copy_from_slice(&self.kept);
    }

    fn pooled(&self) -> Option<&Pooled> {
        Some(self)
    }

    fn save(&mut self) -> u64 {
        let count = (self.save)(black_box(&self.words), &mut self.room);
        self.saved = count as usize;
        count
    }

    fn load(&mut self) -> u64 {
        (self.load)(&mut self.words, black_box(&self.room[..self.saved]))
    }

    fn load_from(&mut self, saved: &[u8]) -> u64 {
        (self.load)(&mut self.words, saved)
    }

    fn may_send(&mut self, notice: u32, resident: u32, limit: u32) -> u64 {
        (self.may_send)(&mut self.words, notice, resident, limit)
    }

    fn clear_notice(&mut self, notice: u32) -> u64 {
        (self.clear_notice)(&mut self.words, notice)
    }
}

impl Set for BTreeSet<u32> {
    fn name(&self) -> &'static str {
        "BTreeSet"
    }

    fn run(&mut self, work: &Work) -> u64 {
        let one = |command: &Command| match command {
            Command::Search { key } => self.contains(key),
            Command::Insert { key } => self.insert(*key),
            Command::Delete { key } => self.remove(key),
            Command::AtOrAbove { key } => black_box(self.range(key..).next()).is_some(),
            Command::Count { first, last } => black_box(self.range(first..=last).count()) <= self.len(),
            Command::DeleteSpan { first, last } => {
                let gone: Vec<u32> = self.range(first..=last).copied().collect();
                gone.iter().all(|key| self.remove(key))
            }
            _ => unreachable!("a set takes no steps"),
        };
        work.commands.iter().map(one).filter(|&good| good).count() as u64
    }
}

#[cfg(feature = "cpp")]
mod cpp {
    use super::{Set, Work};
    use std::ffi::c_void;

    type New = unsafe extern "C" fn(usize) -> *mut c_void;
    type Run = unsafe extern "C" fn(*mut c_void, *const u32, *const u32, usize) -> u64;

    macro_rules! declared {
        ($($there:ident $new:ident $run:ident)*) => {
            #[link(name = "baselines", kind = "static")]
            #[link(name = "stdc++")]
            extern "C" {
                $(fn $there() -> i32; fn $new(most: usize) -> *mut c_void;
                  fn $run(set: *mut c_void, operations: *const u32, keys: *const u32, n: usize) -> u64;)*
            }
        };
    }
    declared! { std_set_there std_set_new std_set_run boost_set_there boost_set_new boost_set_run bsd_tree_there bsd_tree_new bsd_tree_run }

    struct Foreign {
        name: &'static str,
        set: *mut c_void,
        run: Run,
    }

    impl Set for Foreign {
        fn name(&self) -> &'static str {
            self.name
        }

        fn run(&mut self, work: &Work) -> u64 {
            // SAFETY: the set was made by the same baseline; both arrays have `len` elements.
            unsafe { (self.run)(self.set, work.operations.as_ptr(), work.keys.as_ptr(), work.len()) }
        }
    }

    /// The C++ sets whose headers were there. They live as long as the program.
    pub fn sets(most: usize) -> Vec<Box<dyn Set>> {
        // SAFETY: these take nothing.
        let all: [(&'static str, i32, New, Run); 3] = unsafe {
            [
                ("std::set", std_set_there(), std_set_new, std_set_run),
                ("boost", boost_set_there(), boost_set_new, boost_set_run),
                ("bsd tree.h", bsd_tree_there(), bsd_tree_new, bsd_tree_run),
            ]
        };
        let there = all.into_iter().filter(|set| set.1 == 1);
        there.map(|(name, _, new, run)| Box::new(Foreign { name, set: unsafe { new(most) }, run }) as Box<dyn Set>).collect()
    }
}

/// Both pools, empty, the library first and its cousin second.
pub fn pools(slots: usize) -> Vec<Box<dyn Set>> {
    vec![Box::new(Pooled::library(slots)), Box::new(Pooled::cousin(slots))]
}

/// All contestants, empty, the pools first.
pub fn all(slots: usize) -> Vec<Box<dyn Set>> {
    let mut sets = pools(slots);
    sets.push(Box::new(BTreeSet::new()));
    #[cfg(feature = "cpp")]
    sets.extend(cpp::sets(slots));
    sets
}
