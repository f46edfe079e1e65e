//! What the machine allows an audit: its dependent loads alone, beside the whole of it, on the same words.

use crate::sets::{pools, Set, Work};
use crate::{delete, each, settle, settled_pools, spread, Rng};
use std::hint::black_box;
use std::time::{Duration, Instant};

const SLOTS: [usize; 2] = [1023, 16_383];
const SPELLS: usize = 10;
const SPELL: Duration = Duration::from_millis(20);

/// The sum of all words behind the header, read in their order.
fn in_order(pool: &[u32]) -> u32 {
    pool[4..].iter().fold(0, |sum, &word| sum.wrapping_add(word))
}

/// The sum of a slot's words, and its links.
///
/// # Safety
/// The slot must be one of the pool.
unsafe fn read(pool: &[u32], slot: u32) -> (u32, u32, u32) {
    let at = slot as usize * 4;
    let [key, left, right, weight] = unsafe { *pool.as_ptr().add(at).cast::<[u32; 4]>() };
    (key.wrapping_add(left).wrapping_add(right).wrapping_add(weight), left, right)
}

/// # Safety
/// The slot must be a node of a sound pool.
unsafe fn tree(pool: &[u32], slot: u32) -> u32 {
    let (words, left, right) = unsafe { read(pool, slot) };
    if left == 0 {
        return words;
    }
    words.wrapping_add(unsafe { tree(pool, left) }).wrapping_add(unsafe { tree(pool, right) })
}

/// The same sum by the links, as an audit has to go: down the tree and along the free chain, with no test but where a way ends.
///
/// # Safety
/// The pool must be sound.
unsafe fn by_links(pool: &[u32]) -> u32 {
    let (root, mut free) = (pool[0], pool[1]);
    let mut sum = if root == 0 { 0 } else { unsafe { tree(pool, root) } };
    while free != 0 {
        let (words, next, _) = unsafe { read(pool, free) };
        sum = sum.wrapping_add(words);
        free = next;
    }
    sum
}

/// Adds up or judges the words of a pool.
type Pass = fn(&[u32]) -> u32;

/// The least nanoseconds a slot of the sums and the audits, in turn.
fn row(what: &str, pool: &[u32], audits: impl Iterator<Item = (&'static str, Pass)>) {
    // SAFETY: it is called after the audits below have passed the pool.
    let followed: Pass = |pool| unsafe { by_links(pool) };
    let audits: Vec<_> = audits.collect();
    assert!(audits.iter().all(|(_, audit)| audit(pool) == 0), "{what}: not sound");
    assert_eq!(in_order(pool), followed(pool), "{what}: each slot is read once");
    let sums: [(&str, Pass); 2] = [("in order", in_order), ("by links", followed)];
    let mut all: Vec<_> = sums.into_iter().chain(audits).map(|(name, pass)| (name, pass, f64::INFINITY)).collect();
    let slots = pool.len() / 4 - 1;
    let many = SLOTS[1] / slots;
    for _ in 0..SPELLS {
        for (_, pass, least) in &mut all {
            let started = Instant::now();
            while started.elapsed() < SPELL {
                let begun = Instant::now();
                (0..many).for_each(|_| {
                    black_box(pass(black_box(pool)));
                });
                *least = least.min(begun.elapsed().as_nanos() as f64 / (many * slots) as f64);
            }
        }
    }
    let cells: Vec<String> = all.iter().map(|(name, _, ns)| format!("{name} {ns:.2}")).collect();
    println!("{what:44} {}", cells.join("  "));
}

/// As prepared, full, and half full after deletes: there the free chain goes to and fro.
pub fn table() {
    println!("the audit and the machine: ns a slot, the least time; settled sets");
    println!("in order: all words read once, a sum; by links: each slot read once as an audit has to, a sum, no test but where a way ends");
    for slots in SLOTS {
        let one = |what: &str, sets: &[Box<dyn Set>]| {
            let pools: Vec<_> = sets.iter().filter_map(|set| set.pooled()).collect();
            assert!(pools.iter().all(|pool| pool.words == pools[0].words), "{what}: the contestants do not agree");
            row(&format!("{slots} slots, {what}"), &pools[0].words, pools.iter().map(|pool| (pool.name, pool.audit)));
        };
        one("as prepared", &pools(slots));
        let mut rng = Rng(88_172_645_463_325_252);
        let keys = rng.shuffled(&spread(slots.div_ceil(2)));
        let mut sets = settled_pools(&keys, slots);
        one(&format!("{} keys", keys.len()), &sets);
        let gone = Work::new(each(&rng.shuffled(&keys)[..keys.len() / 2], delete), 256);
        for set in sets.iter_mut() {
            set.run(&gone);
            set.run(&settle(usize::MAX));
        }
        one(&format!("{} of {} keys left", keys.len() - gone.len(), keys.len()), &sets);
    }
}
