//! Pools made to hurt: shared subtrees, cycles, deep chains; and saved bytes made so. The audit, save, load, may_send and a span's count
//! stay linear and the stack small, and kind 1 at the root walks to no leaf.

use crate::pair::{library_batch, library_call, library_load, library_save, same_call, same_on};
use crate::pools::{deepest, deepest_and_heavy, deepest_from, grown, two_chains, Shape, Weights, LARGE};
use crate::rng::Rng;
use crate::threads::{on_stack, roomy};
use crate::twin::{self, write_number, Call, Command, Parts, LIMITS, MOST_SLOTS};
use chromatic::raw;
use std::array::from_fn;
use std::hint::black_box;
use std::thread;
use std::time::{Duration, Instant};

/// The stack of a roof unit's thread, which keeps to a large pool.
const SMALL_STACK: usize = 256 * 1024;
/// The stack that Rust gives a thread, a test's own too. It is enough for the most slots.
const USUAL_STACK: usize = 2 * 1024 * 1024;

/// The stack on which every call on a pool of so many slots ends well, and a load of bytes of so many.
fn stack_for(slots: usize) -> usize {
    if slots <= LARGE {
        SMALL_STACK
    } else {
        USUAL_STACK
    }
}

/// As deep as a sound tree gets.
const DEEP: [Shape; 3] = [Shape::ChainLeft, Shape::ChainRight, Shape::Zigzag];

/// Words whose slots are all in one tangle: slot s is what `node` says, the root is slot 1, N is C. Leaves weigh 1 and the rest nothing,
/// so that the fourth word stops no walk early.
fn tangle(slots: usize, node: impl Fn(u32) -> [u32; 4]) -> Vec<u32> {
    let mut words = vec![1, 0, slots as u32, u32::from(slots > 1)];
    (1..=slots as u32).for_each(|s| words.extend(node(s)));
    words
}

/// The damaged pools, by name. Routers leave room on the side that leads on, so that order stops no walk early.
fn tangles(slots: usize) -> Vec<(&'static str, Vec<u32>)> {
    let c = slots as u32;
    let weight = |s| u32::from(s == 1);
    let after = |s| if s < c { s + 1 } else { 1 };
    let leaf = [8, 0, 0, 1];
    let falling = |s| 20_000 - s;
    vec![
        ("a chain of all slots to the left", tangle(slots, |s| [falling(s), after(s), 1, weight(s)])),
        ("a cycle to the left with one router", tangle(slots, |s| [7, after(s), after(s), weight(s)])),
        ("a slot that is its own child", tangle(slots, |s| [7, s, s, weight(s)])),
        ("both children the next slot", tangle(slots, |s| if s < c { [falling(s), s + 1, s + 1, weight(s)] } else { leaf })),
        ("both children the next slot, one router", tangle(slots, |s| if s < c { [8, s + 1, s + 1, weight(s)] } else { leaf })),
        ("children the next two slots", tangle(slots, |s| if s + 1 < c { [falling(s), s + 1, s + 2, weight(s)] } else { leaf })),
        ("one leaf shared by a left chain", tangle(slots, |s| if s < c { [falling(s), s + 1, c, weight(s)] } else { leaf })),
        ("a free chain that is a cycle", free_cycle(slots)),
        ("a deep chain whose last child is the root", last_child(slots, 1)),
        ("a deep chain whose last child is shared", last_child(slots, c - 1)),
    ]
}

fn free_cycle(slots: usize) -> Vec<u32> {
    let mut words = tangle(slots, |s| [0, if s < slots as u32 { s + 1 } else { 1 }, 0, u32::MAX]);
    words[..4].copy_from_slice(&[0, 1, 0, 0]);
    words
}

/// A sound chain to the right, odd slots inner and even ones leaves, but for the lowest inner node's right child.
fn last_child(slots: usize, child: u32) -> Vec<u32> {
    let lowest_leaf = slots as u32 - (slots as u32 + 1) % 2;
    let mut words = tangle(slots, |s| match s {
        _ if s == lowest_leaf => [s, 0, 0, 1],
        _ if s % 2 == 0 => [s - 1, 0, 0, 1],
        _ => [s, s + 1, s + 2, u32::from(s == 1)],
    });
    if let Some(lowest_inner) = lowest_leaf.checked_sub(2) {
        words[4 * lowest_inner as usize + 2] = child;
    }
    words
}

/// Every call on the words; the audit's code.
fn call_all(words: &[u32]) -> u32 {
    let mut pool = words.to_vec();
    let code = raw::audit(&pool);
    let figures: u64 = (1..=7).map(|index| raw::report(&pool, index)).sum();
    assert!(code == 0 || figures == 0);
    let operations = every_operation(words);
    assert_eq!(library_batch(&mut pool, &operations, &mut vec![0; operations.len()]), (code, 0));
    let mut out = vec![0; LONGEST_FORM];
    let (saved, count) = library_save(words, &mut out);
    assert_eq!(saved, code);
    if code == 0 {
        assert_eq!(library_load(&mut pool, &out[..count as usize]), (0, words[2]));
    }
    for call in [SEND, Call::Clear { notice: 1 }] {
        let mut pool = words.to_vec();
        let answered = library_call(&mut pool, call).0;
        assert!(answered == code && (code == 0 || pool == words) || (code, answered) == (0, 7), "{call:?}");
    }
    assert_eq!(raw::prepare(&mut pool), 0);
    code
}

/// Of the least notice, so that its keys lie above all of the deepest trees, at the far end of a chain to the right; with the
/// most searches.
const SEND: Call = Call::MaySend { notice: 1, resident: 0, limit: 7 };

/// No form has more bytes: two numbers of two bytes, and seven for each node.
const LONGEST_FORM: usize = 4 + 7 * MOST_SLOTS;

/// At both ends of the deepest tree's keys.
fn every_operation(words: &[u32]) -> Vec<u8> {
    let far = words.len() as u32 / 8 - 1;
    Command::all(&[
        Command::AtOrAbove(far),
        Command::AtOrAbove(0),
        Command::Count(0, u32::MAX),
        Command::Search(1),
        Command::Search(far),
        Command::Delete(1),
        Command::Delete(far),
        Command::Insert(100_000),
        Command::Step(1, 3),
        Command::Settle(3),
        Command::DeleteSpan(far.saturating_sub(9), far),
        Command::DeleteSpan(0, 9),
    ])
}

#[test]
fn hurtful_pools_end_and_are_refused() {
    for slots in [1, 2, 3, 4, 9, 30, LARGE, MOST_SLOTS] {
        for (name, words) in roomy(|| tangles(slots)) {
            let tangled = words.clone();
            let code = on_stack(stack_for(slots), move || call_all(&tangled));
            assert_eq!(code, roomy(|| same_on(&words)), "{name}, C = {slots}");
            assert!(code == 2 || slots < 4, "{name}, C = {slots}");
        }
    }
}

/// With the most slots there are 8,191 inner nodes on one way.
#[test]
fn the_deepest_sound_pools_fit_the_stack() {
    for slots in [LARGE, MOST_SLOTS] {
        for shape in DEEP {
            let words = roomy(|| deepest(slots, shape).words());
            assert_eq!(on_stack(stack_for(slots), move || call_all(&words)), 0, "{shape:?}, C = {slots}");
        }
    }
}

/// The deepest trees whose keys are all of one notice, from its first key on: seven of eight are marks. Their clearing is a
/// delete for each, from the one end of the chain or the other.
fn deepest_of_a_notice(slots: usize, shape: Shape) -> Vec<u32> {
    deepest_from(65_536, slots, shape).words()
}

#[test]
fn clearing_the_deepest_trees_fits_the_stack() {
    let clear = Call::Clear { notice: 1 };
    // 512 keys from attempt 0 on, of which 64 are no marks; and 8,192, of which 1,024 are none.
    for (slots, want, left) in [(LARGE, (0, 448), 127), (MOST_SLOTS, (0, 7168), 2047)] {
        for shape in DEEP {
            let words = roomy(|| deepest_of_a_notice(slots, shape));
            let (answer, after) = roomy(|| same_call(&words, clear));
            assert_eq!((answer, after[2]), (want, left), "{shape:?}, C = {slots}");
            let on_its_stack = on_stack(stack_for(slots), move || {
                let mut pool = words;
                (library_call(&mut pool, clear), pool)
            });
            assert!(on_its_stack == (answer, after), "{shape:?}, C = {slots}");
        }
    }
}

/// Numbers without end, in seven-bit groups, after these bytes; cut after `len` bytes.
fn endless(beginning: &[u8], numbers: impl Iterator<Item = u32>, len: usize) -> Vec<u8> {
    let mut bytes = beginning.to_vec();
    numbers.take(len).for_each(|n| write_number(n, 0, &mut bytes));
    bytes.truncate(len);
    bytes
}

/// Inner nodes, each the left child of the one before. Routers leave room on that side, so that order stops no walk early.
fn inner_nodes() -> impl Iterator<Item = u32> {
    (0..).flat_map(|i| [if i == 0 { 3 } else { 1 }, (1 << 28) - i])
}

/// Bytes that no writer produces, by name, `len` of them, with so many slots.
fn hurtful_bytes(slots: usize, len: usize) -> Vec<(&'static str, Vec<u8>)> {
    let c = slots as u32;
    let numbers = |all: [u32; 2]| endless(&[], all.into_iter(), usize::MAX);
    let (full, most_nodes) = (numbers([c, c]), numbers([c, u32::MAX]));
    let chain_right = || [3, 0].into_iter().chain((0..).flat_map(|i| [2, i, 1, i + 1]));
    let sound = deepest(slots, Shape::ChainLeft).saved();
    let mut rng = Rng::seeded("noise made to hurt", 1);
    let noise: Vec<u32> = (0..len).map(|_| rng.next() as u32).collect();
    vec![
        ("N of 4,294,967,295", endless(&most_nodes, inner_nodes(), len)),
        ("inner nodes to the left without end", endless(&full, inner_nodes(), len)),
        ("a chain to the right without end", endless(&full, chain_right(), len)),
        ("leaves without end", endless(&full, (0..).flat_map(|i| [2, i]), len)),
        ("a sound form with more after it", endless(&sound, [2, 3].into_iter().cycle(), len.max(sound.len() + 1))),
        ("a number without end", endless(&[&full[..], &vec![0xFF; len]].concat(), std::iter::empty(), len)),
        ("padding without end", vec![0x80; len]),
        ("zeros without end", vec![0; len]),
        ("noise", noise.iter().map(|&n| n as u8).collect()),
        ("noise for nodes", endless(&full, noise.into_iter(), len)),
    ]
}

/// A load goes as deep as its bytes say, whatever the pool's C is: so it is their C that the stack is for.
#[test]
fn hurtful_bytes_end_and_are_refused() {
    for (slots, len) in [LARGE, MOST_SLOTS].into_iter().flat_map(|slots| [3, 100, 10_000, 1 << 20].map(|len| (slots, len))) {
        for (name, saved) in roomy(|| hurtful_bytes(slots, len)) {
            for c in [9, LARGE, MOST_SLOTS] {
                let (saved, before) = (saved.clone(), vec![7; 4 + 4 * c]);
                let want = roomy(|| twin::load(&mut before.clone(), &saved));
                assert!(want.0 == 13 && want.1 as usize <= saved.len(), "{name}, {len} bytes, by the twin: {want:?}");
                let mut words = before.clone();
                let (answer, after) = on_stack(stack_for(slots), move || (library_load(&mut words, &saved), words));
                assert_eq!(answer, want, "{name}, {len} bytes, C = {slots}, into {c} slots");
                assert!(after == before, "{name}, {len} bytes, C = {slots}, into {c} slots: words are changed");
            }
        }
    }
}

/// The least time of many calls.
fn least_time(mut call: impl FnMut()) -> Duration {
    (0..60)
        .map(|_| {
            let begun = Instant::now();
            call();
            begun.elapsed()
        })
        .min()
        .unwrap()
}

/// The times of some calls, in nanoseconds, `call` being told which; and in how many rounds. What else the machine does only
/// adds to a time, so the least is taken, and looked for again while the times are not good: what costs too much stays above
/// in every round.
fn least_times<const N: usize>(good: impl Fn(&[f64; N]) -> bool, mut call: impl FnMut(usize)) -> ([f64; N], usize) {
    let mut times = [f64::MAX; N];
    let mut rounds = 0;
    while rounds == 0 || rounds < 200 && !good(&times) {
        if rounds > 0 {
            thread::sleep(Duration::from_millis(10));
        }
        for (i, time) in times.iter_mut().enumerate() {
            *time = time.min(least_time(|| call(i)).as_nanos() as f64);
        }
        rounds += 1;
    }
    (times, rounds)
}

/// Time against size, of which each is twice the one before: eight times the size takes about eight times the time. (A square would
/// take 64 times.)
fn assert_linear<T, const N: usize>(what: &str, unit: &str, sizes: [usize; N], mut on: [T; N], mut call: impl FnMut(&mut T)) {
    // 12 for eight times the size: 8, and half as much again for the caches. A microsecond is for the clock.
    let most = 1.5 * f64::from(1 << (N - 1));
    let linear = |times: &[f64; N]| times[N - 1] < most * times[0] + 1000.0;
    let (times, rounds) = least_times(linear, |size| call(&mut on[size]));
    println!("measured {what}: {times:.0?} ns for {unit} = {sizes:?}, in {rounds} rounds");
    assert!(linear(&times), "{what}: {times:?} in {rounds} rounds");
}

/// Eight times the slots, up to a large pool; and again, up to the most.
const SIZES: [[usize; 4]; 2] = [[127, 255, 511, LARGE], [2047, 4095, 8191, MOST_SLOTS]];

/// For all sizes, with room for the twin, which makes the trees.
fn at_sizes(linear: impl Fn([usize; 4]) + Send + Sync) {
    SIZES.into_iter().for_each(|sizes| roomy(|| linear(sizes)));
}

/// What hurts the audit, and the deepest sound tree; by name, and by size.
fn hurtful_by_size(sizes: [usize; 4]) -> impl Iterator<Item = (&'static str, [Vec<u32>; 4])> {
    let pools = sizes.map(|slots| {
        let sound = ("the deepest sound tree", deepest(slots, Shape::ChainRight).words());
        [vec![sound], tangles(slots)].concat()
    });
    (0..pools[0].len()).map(move |i| (pools[0][i].0, from_fn(|size| pools[size][i].1.clone())))
}

#[test]
fn the_audit_stays_linear() {
    at_sizes(|sizes| {
        for (name, pools) in hurtful_by_size(sizes) {
            assert_linear(&format!("audit of {name}"), "C", sizes, pools, |pool| {
                black_box(raw::audit(black_box(pool)));
            });
        }
    });
}

#[test]
fn save_stays_linear() {
    at_sizes(|sizes| {
        let mut out = vec![0; LONGEST_FORM];
        for (name, pools) in hurtful_by_size(sizes) {
            assert_linear(&format!("save of {name}"), "C", sizes, pools, |pool| {
                black_box(raw::save(black_box(pool), &mut out));
            });
        }
    });
}

/// All seven numbers, each with an audit.
#[test]
fn the_report_stays_linear() {
    at_sizes(|sizes| {
        for shape in DEEP {
            let pools = sizes.map(|slots| deepest_and_heavy(slots, 255, shape).words());
            assert_linear(&format!("report of the deepest and heaviest tree, {shape:?}"), "C", sizes, pools, |pool| {
                (1..=7).for_each(|index| assert_ne!(raw::report(black_box(pool), index), 0));
            });
        }
    });
}

/// Seven searches at the most, and an insert, beside the audit; a clearing that finds nothing is one descent. (One that finds
/// marks is as many deletes, each of them a way down, so that in a chain it is a square, as those deletes are.)
#[test]
fn may_send_stays_linear() {
    let [small, _] = SIZES;
    roomy(|| may_send_at(small));
    // A pool of 2,047 slots is 32 KiB: from the second search on it lies in the first cache, and larger ones do not.
    roomy(|| may_send_at([4095, 8191, MOST_SLOTS]));
}

fn may_send_at<const N: usize>(sizes: [usize; N]) {
    type Words = fn(usize) -> Vec<u32>;
    // All are full, so that no call changes them: 7, and 16 where all attempts are marked.
    let pools: [(&str, u32, Words); 3] = [
        ("the deepest sound tree", 7, |slots| deepest(slots, Shape::ChainRight).words()),
        ("the deepest tree of marks to the left", 16, |slots| deepest_of_a_notice(slots, Shape::ChainLeft)),
        ("the deepest tree of marks to the right", 16, |slots| deepest_of_a_notice(slots, Shape::ChainRight)),
    ];
    for (name, code, words) in pools {
        let pools = sizes.map(words);
        assert_linear(&format!("may_send on {name}"), "C", sizes, pools.clone(), |pool| {
            assert_eq!(library_call(black_box(pool), SEND), (code, 0));
        });
        assert_linear(&format!("clear_notice of nothing on {name}"), "C", sizes, pools, |pool| {
            assert_eq!(library_call(black_box(pool), Call::Clear { notice: 2 }), (0, 0));
        });
    }
}

/// One way down or two, and for a count a walk over the tree, beside the audit. (A span that is deleted is as many deletes, each of them a way
/// down, so that in a chain it is a square, as those deletes are.)
#[test]
fn spans_stay_linear() {
    let all = u32::MAX;
    at_sizes(|sizes| {
        for shape in DEEP {
            let pools = sizes.map(|slots| deepest(slots, shape).words());
            for command in [Command::AtOrAbove(all), Command::Count(0, all), Command::Count(3, all - 1), Command::DeleteSpan(all - 1, all)]
            {
                let bytes = Command::all(&[command]);
                assert_linear(&format!("{command:?} on the deepest tree, {shape:?}"), "C", sizes, pools.clone(), |pool| {
                    assert_eq!(library_batch(black_box(pool), &bytes, &mut [0; 2]), (0, 0));
                });
            }
        }
    });
}

/// In a settled pool full of other marks: a clearing that finds nothing does not ask for the 57,344 marks that the notice could
/// have, and may_send audits once, for its seven searches too are little beside an audit.
#[test]
fn the_send_limit_costs_about_an_audit() {
    [LARGE, MOST_SLOTS].into_iter().for_each(send_limit_against_audit);
}

fn send_limit_against_audit(slots: usize) {
    // Every odd notice has one resident's seven marks.
    let marks = (0..).flat_map(|i| LIMITS.map(move |attempt| Parts { notice: 2 * i + 1, resident: i, attempt }.key()));
    let keys: Vec<u32> = marks.take(slots.div_ceil(2)).collect();
    let mut pool = grown(&mut Rng::seeded("a pool full of marks", 1), slots, &keys, 1, Shape::Halves, Weights::Red).words();
    assert_eq!(library_batch(&mut pool, &Command::all(&[Command::Settle(u32::MAX)]), &mut [0; 2]), (0, 0));
    assert_eq!(raw::report(&pool, 7), 0, "nothing is left to settle");
    let (none, all_used) = (Call::Clear { notice: 74 }, Call::MaySend { notice: 73, resident: 36, limit: 7 });
    // A microsecond is for the clock, so it is for ten calls.
    let good = |&[audit, clear, send]: &[f64; 3]| clear < 1.7 * audit + 1000.0 && send < 1.7 * audit + 1000.0;
    let (times, rounds) = least_times(good, |which| {
        for _ in 0..10 {
            match which {
                0 => assert_eq!(raw::audit(black_box(&pool)), 0),
                1 => assert_eq!(library_call(black_box(&mut pool), none), (0, 0)),
                _ => assert_eq!(library_call(black_box(&mut pool), all_used), (16, 0)),
            }
        }
    });
    println!("measured ten audits, clearings of nothing and may_send that are all used: {times:.0?} ns at C = {slots}, in {rounds} rounds");
    assert!(good(&times), "{times:?} in {rounds} rounds");
}

/// 02 (v): "Stop walking for L." Kind 1 at the root, refused with 11, asks for L, and kind 2 there, refused with 10, does not.
#[test]
fn kind_1_at_the_root_costs_about_any_refused_step() {
    let mut pool = roomy(|| two_chains(MOST_SLOTS, 255).words());
    let steps = |kind| Command::all(&[Command::Step(1, kind); 256]);
    let (asking, other) = (steps(1), steps(2));
    let mut answers = [0; 512];
    let good = |&[asking, other]: &[f64; 2]| asking < 1.5 * other + 1000.0;
    let (times, rounds) = least_times(good, |which| {
        let (bytes, code) = if which == 0 { (&asking, 11) } else { (&other, 10) };
        assert_eq!(library_batch(black_box(&mut pool), bytes, &mut answers), (0, 0));
        assert_eq!(answers[510], code);
    });
    println!(
        "measured 256 steps refused with 11 and with 10, 4,096 edges above the first leaf and the last: {times:.0?} ns, in {rounds} rounds"
    );
    assert!(good(&times), "{times:?} in {rounds} rounds");
}

#[test]
fn load_stays_linear() {
    let any = |slots| vec![7; 4 + 4 * slots];
    at_sizes(|sizes| {
        for shape in [Shape::ChainRight, Shape::ChainLeft, Shape::Halves] {
            let forms = sizes.map(|slots| (any(slots), deepest(slots, shape).saved()));
            assert_linear(&format!("load of {shape:?}"), "C", sizes, forms, |(words, saved)| {
                assert_eq!(library_load(words, black_box(saved)).0, 0);
            });
        }
        let [.., slots] = sizes;
        let lengths = [1 << 17, 1 << 18, 1 << 19, 1 << 20];
        let forms = lengths.map(|len| hurtful_bytes(slots, len));
        for (i, (name, _)) in forms[0].iter().enumerate() {
            let forms = from_fn::<_, 4, _>(|size| forms[size][i].1.clone());
            let mut words = any(slots);
            assert_linear(&format!("load of {name}, C = {slots}"), "bytes", lengths, forms, |saved| {
                assert_eq!(library_load(&mut words, black_box(saved)).0, 13);
            });
        }
    });
}

const PAINT: u64 = 0x5AFE_5AFE_5AFE_5AFE;
/// More than anything measured here needs.
const PAINTED_STACK: usize = 2 * USUAL_STACK;
/// What the painter's and the measured calls' own frames may need.
const MARGIN: usize = 4 * 1024;

/// The stack below this frame, as 8-byte words from the lowest, and where it ends.
fn below_here() -> (*mut u64, usize) {
    let here = 0u64;
    let top = &here as *const u64 as usize & !7;
    let bytes = PAINTED_STACK - 16 * MARGIN;
    ((top - bytes) as *mut u64, (bytes - MARGIN) / 8)
}

/// How many bytes of stack f uses, from a few KiB on: what is below this frame is painted before and looked at after.
#[inline(never)]
fn stack_used(f: impl Fn() + Send + 'static) -> usize {
    on_stack(PAINTED_STACK, move || {
        let (lowest, words) = below_here();
        // SAFETY: these words lie in this thread's own stack, which is mapped whole, below every live frame.
        (0..words).for_each(|i| unsafe { lowest.add(i).write_volatile(PAINT) });
        f();
        let untouched = (0..words).take_while(|&i| unsafe { lowest.add(i).read_volatile() } == PAINT).count();
        (words - untouched) * 8 + MARGIN
    })
}

/// What a thread needs beside the call: its own start, the test harness's, and the test's frames.
const CALLER: usize = 64 * 1024;
/// What a level may take in save and load.
const SAVED_LEVEL: f64 = 200.0;
/// What it may take elsewhere: a sound tree of the most slots has (C + 1) / 2 levels.
const LEVEL: f64 = ((USUAL_STACK - CALLER) / MOST_SLOTS.div_ceil(2)) as f64;

/// The deepest sound pools of so many slots, and the damaged ones.
fn deep(slots: usize) -> Vec<Vec<u32>> {
    DEEP.map(|shape| deepest(slots, shape).words()).to_vec()
}

fn damaged(slots: usize) -> Vec<Vec<u32>> {
    tangles(slots).into_iter().map(|(_, words)| words).collect()
}

/// A call on each of these pools, or on a copy of it.
fn on_each(pools: Vec<Vec<u32>>, call: impl Fn(&mut Vec<u32>) + Send + 'static) -> Box<dyn Fn() + Send> {
    Box::new(move || pools.iter().for_each(|words| call(&mut words.to_vec())))
}

fn operations_on(words: &mut [u32], code: u32) {
    let operations = every_operation(words);
    assert_eq!(library_batch(words, &operations, &mut vec![0; operations.len()]), (code, 0));
}

/// A command by itself, on a sound pool.
fn command_on(words: &mut [u32], command: Command) {
    let mut answer = [7; 2];
    assert_eq!(library_batch(words, &Command::all(&[command]), &mut answer), (0, 0));
    assert_eq!(answer[0], 0, "{command:?}");
}

fn report_on(words: &[u32], sound: bool) {
    (1..=7).for_each(|index| assert_eq!(raw::report(words, index) == 0, !sound || [3, 5].contains(&index), "report {index}"));
}

#[test]
fn bytes_of_stack_for_each_level() {
    /// Makes the call for so many slots, all that it needs made before.
    type Make = fn(usize) -> Box<dyn Fn() + Send>;
    let calls: [(&str, f64, Make); 18] = [
        ("prepare", LEVEL, |slots| on_each(deep(slots), |words| assert_eq!(raw::prepare(words), 0))),
        ("audit", LEVEL, |slots| on_each(deep(slots), |words| assert_eq!(raw::audit(words), 0))),
        ("report", LEVEL, |slots| on_each(deep(slots), |words| report_on(words, true))),
        ("batch", LEVEL, |slots| on_each(deep(slots), |words| operations_on(words, 0))),
        ("count of all keys", LEVEL, |slots| on_each(deep(slots), |words| command_on(words, Command::Count(0, u32::MAX)))),
        ("delete of a span", LEVEL, |slots| on_each(deep(slots), |words| command_on(words, Command::DeleteSpan(0, 20)))),
        ("save", SAVED_LEVEL, |slots| on_each(deep(slots), |words| assert_eq!(library_save(words, &mut vec![0; LONGEST_FORM]).0, 0))),
        ("load", SAVED_LEVEL, |slots| {
            let forms = DEEP.map(|shape| deepest(slots, shape).saved());
            Box::new(move || forms.iter().for_each(|saved| assert_eq!(library_load(&mut vec![7; 4 + 4 * slots], saved).0, 0)))
        }),
        ("may_send", LEVEL, |slots| on_each(deep(slots), |words| assert_eq!(library_call(words, SEND), (7, 0)))),
        ("clear_notice", LEVEL, |slots| {
            let marks = vec![deepest_of_a_notice(slots, Shape::Zigzag)];
            on_each(marks, |words| assert_ne!(library_call(words, Call::Clear { notice: 1 }), (0, 0)))
        }),
        ("prepare, a damaged pool", LEVEL, |slots| on_each(damaged(slots), |words| assert_eq!(raw::prepare(words), 0))),
        ("audit, a damaged pool", LEVEL, |slots| on_each(damaged(slots), |words| assert_eq!(raw::audit(words), 2))),
        ("report, a damaged pool", LEVEL, |slots| on_each(damaged(slots), |words| report_on(words, false))),
        ("batch, a damaged pool", LEVEL, |slots| on_each(damaged(slots), |words| operations_on(words, 2))),
        ("save, a damaged pool", SAVED_LEVEL, |slots| {
            on_each(damaged(slots), |words| assert_eq!(library_save(words, &mut vec![0; LONGEST_FORM]).0, 2))
        }),
        ("may_send, a damaged pool", LEVEL, |slots| on_each(damaged(slots), |words| assert_eq!(library_call(words, SEND), (2, 0)))),
        ("clear_notice, a damaged pool", LEVEL, |slots| {
            on_each(damaged(slots), |words| assert_eq!(library_call(words, Call::Clear { notice: 1 }), (2, 0)))
        }),
        ("load, damaged bytes", SAVED_LEVEL, |slots| {
            let forms = hurtful_bytes(slots, 16 * slots);
            Box::new(move || forms.iter().for_each(|(_, saved)| assert_eq!(library_load(&mut vec![7; 4 + 4 * slots], saved).0, 13)))
        }),
    ];
    let half = MOST_SLOTS / 2;
    let levels = (MOST_SLOTS.div_ceil(2) - half.div_ceil(2)) as f64;
    for (name, most, make) in calls {
        let [at_large, at_half, at_most] = [LARGE, half, MOST_SLOTS].map(|slots| stack_used(roomy(|| make(slots))));
        let per_level = at_most.saturating_sub(at_half) as f64 / levels;
        println!(
            "measured stack of {name}: {per_level:.0} bytes a level, {} KiB at C = {LARGE}, {} KiB at C = {MOST_SLOTS}",
            at_large / 1024,
            at_most / 1024
        );
        assert!(at_large + CALLER < SMALL_STACK && at_most + CALLER < USUAL_STACK && per_level <= most, "{name}");
    }
}
