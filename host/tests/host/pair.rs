//! The library and the twin side by side.

use crate::twin::{self, Answer, Call, Command, Set};
use chromatic::raw;

/// What answer words hold before a call.
pub const UNTOUCHED: u32 = 0xA5A5_0000;

/// Words or bytes lent from the middle of others, which a call must leave alone.
pub struct Lent<T = u32>(Vec<T>);

/// What lies on either side of what is lent.
pub trait Beside: Copy + PartialEq + 'static {
    const BESIDE: [Self; 8];
}

impl Beside for u32 {
    const BESIDE: [u32; 8] = [0x0DD_BA11; 8];
}

impl Beside for u8 {
    const BESIDE: [u8; 8] = [0xBE; 8];
}

impl<T: Beside> Lent<T> {
    pub fn of(words: &[T]) -> Lent<T> {
        Lent([&T::BESIDE, words, &T::BESIDE].concat())
    }

    pub fn words(&mut self) -> &mut [T] {
        let end = self.0.len() - T::BESIDE.len();
        &mut self.0[T::BESIDE.len()..end]
    }

    /// The words again.
    pub fn back(mut self) -> Vec<T> {
        assert!(self.0.starts_with(&T::BESIDE) && self.0.ends_with(&T::BESIDE), "a call wrote beside what it was lent");
        self.words().to_vec()
    }
}

fn code_and_number(r: u64) -> Answer {
    ((r >> 32) as u32, r as u32)
}

/// Code and number of the library's batch call.
pub fn library_batch(pool: &mut [u32], bytes: &[u8], answers: &mut [u32]) -> Answer {
    code_and_number(raw::batch(pool, bytes, answers))
}

/// Code and number of the library's save.
pub fn library_save(pool: &[u32], out: &mut [u8]) -> Answer {
    code_and_number(raw::save(pool, out))
}

/// Code and number of the library's load.
pub fn library_load(pool: &mut [u32], saved: &[u8]) -> Answer {
    code_and_number(raw::load(pool, saved))
}

/// Code and number of the library's may_send or clear_notice.
pub fn library_call(pool: &mut [u32], call: Call) -> Answer {
    code_and_number(match call {
        Call::MaySend { notice, resident, limit } => raw::may_send(pool, notice, resident, limit),
        Call::Clear { notice } => raw::clear_notice(pool, notice),
    })
}

/// Everything that can be asked of these words without changing them, by both; the audit's code.
pub fn same_on(words: &[u32]) -> u32 {
    let code = raw::audit(words);
    assert_eq!(code, twin::audit(words), "audit of {words:?}");
    let (report_code, figures) = twin::report(words);
    assert_eq!(code, report_code, "report of {words:?}");
    // "takes an index, 1 first, and returns that number, 0 for a refused pool or any other index"
    for (index, want) in (1..).zip(figures).chain([(0, 0), (8, 0), (1 << 31, 0), (u32::MAX, 0)]) {
        assert_eq!(raw::report(words, index), want, "report {index} of {words:?}");
    }
    code
}

/// Read straight off a sound pool's words: how many edges are above weight 1, and the sum of weight less one over them. (The root's
/// weight is 1, and a free slot's no weight.)
pub fn overweight(words: &[u32]) -> (u64, u64) {
    let weights = words[4..].chunks(4).map(|slot| slot[3]);
    let heavy: Vec<u64> = weights.filter(|&weight| weight > 1 && weight != u32::MAX).map(u64::from).collect();
    (heavy.len() as u64, heavy.iter().map(|weight| weight - 1).sum())
}

/// Read straight off a sound pool's words: for each leaf the sum of the weights on the way to it, the root's left out.
fn sums(words: &[u32]) -> Vec<u32> {
    let mut sums = vec![];
    let mut ahead = vec![(words[0], 0)];
    while let Some((slot, sum)) = ahead.pop().filter(|&(slot, _)| slot != 0) {
        let children = [1, 2].map(|side| words[4 * slot as usize + side]);
        if children == [0, 0] {
            sums.push(sum);
        } else {
            ahead.extend(children.map(|child| (child, sum + words[4 * child as usize + 3])));
        }
    }
    sums
}

/// Of a sound pool: the fourth word is the sum to every leaf, 0 where there is none, and the report's second number.
pub fn assert_level(words: &[u32]) {
    let sums = sums(words);
    let level = sums.first().copied().unwrap_or(0);
    assert!(sums.iter().all(|&sum| sum == level), "the sums to the leaves of {words:?}: {sums:?}");
    assert_eq!(words[3], level, "the fourth word of {words:?}");
    assert_eq!(raw::report(words, 2), level.into(), "the report's second number of {words:?}");
}

/// The batch by both on copies of the words, with room for some answer words; every word afterwards. What was answered.
pub fn same_batch(words: &[u32], bytes: &[u8], room: usize) -> Answer {
    let untouched: Vec<u32> = (0..room as u32).map(|i| UNTOUCHED + i).collect();
    let (mut pool, mut answers) = (Lent::of(words), Lent::of(&untouched));
    let got = library_batch(pool.words(), bytes, answers.words());
    let (pool, answers) = (pool.back(), answers.back());
    let (mut twin_pool, mut twin_answers) = (words.to_vec(), untouched.clone());
    let want = twin::batch(&mut twin_pool, bytes, &mut twin_answers);
    assert_eq!(got, want, "batch {bytes:02X?} with {room} answer words on {words:?}");
    assert_eq!(answers, twin_answers, "answers of batch {bytes:02X?} on {words:?}");
    assert_eq!(pool, twin_pool, "pool after batch {bytes:02X?} on {words:?}");
    if got.0 != 0 {
        assert!(got.0 == 3 || got.1 == 0, "a batch {bytes:02X?} was refused with {got:?}");
        assert!(pool == words && answers == untouched, "a refused batch {bytes:02X?} changed words");
    }
    got
}

/// Save by both, with room for so many bytes; every byte afterwards. What was answered, and the bytes.
pub fn same_save(words: &[u32], room: usize) -> (Answer, Vec<u8>) {
    let untouched: Vec<u8> = (0..room).map(|i| (i as u8).wrapping_mul(59) ^ 0xA5).collect();
    let (mut pool, mut out) = (Lent::of(words), Lent::of(&untouched));
    let got = library_save(pool.words(), out.words());
    assert!(pool.back() == words, "a save of {words:?} changed the pool");
    let out = out.back();
    let mut twin_out = untouched.clone();
    let want = twin::save(words, &mut twin_out);
    assert_eq!(got, want, "save of {words:?} with room for {room} bytes");
    assert_eq!(out, twin_out, "bytes saved of {words:?}");
    if got.0 != 0 {
        assert!(got.1 == 0 && out == untouched, "a refused save of {words:?} wrote, or gave a number");
    }
    assert_eq!(out[got.1 as usize..], untouched[got.1 as usize..], "a save of {words:?} wrote past its count");
    (got, out[..got.1 as usize].to_vec())
}

/// Load by both into copies of the words; every word afterwards. What was answered, and the words.
pub fn same_load(words: &[u32], saved: &[u8]) -> (Answer, Vec<u32>) {
    let (mut pool, mut bytes) = (Lent::of(words), Lent::of(saved));
    let got = library_load(pool.words(), bytes.words());
    assert!(bytes.back() == saved, "a load of {saved:02X?} changed the bytes");
    let pool = pool.back();
    let mut twin_pool = words.to_vec();
    let want = twin::load(&mut twin_pool, saved);
    assert_eq!(got, want, "load of {saved:02X?} into {} words", words.len());
    assert_eq!(pool, twin_pool, "pool after load of {saved:02X?}");
    if got.0 != 0 {
        // "1, 13, 14, each with number 0", but for 13, which has a place now
        assert!(got.0 == 13 || got.1 == 0, "a load of {saved:02X?} was refused with {got:?}");
        assert!(pool == words, "a refused load of {saved:02X?} changed words");
    }
    (got, pool)
}

/// May_send or clear_notice by both on copies of the words; every word afterwards. What was answered, and the words.
pub fn same_call(words: &[u32], call: Call) -> (Answer, Vec<u32>) {
    let mut pool = Lent::of(words);
    let got = library_call(pool.words(), call);
    let pool = pool.back();
    let mut twin_pool = words.to_vec();
    let want = twin::call(&mut twin_pool, call);
    assert_eq!(got, want, "{call:?} on {words:?}");
    assert_eq!(pool, twin_pool, "pool after {call:?} on {words:?}");
    assert_refusal_is_empty(call, got, words, &pool);
    (got, pool)
}

/// "each gives 0 and changes nothing"
fn assert_refusal_is_empty(call: Call, (code, number): Answer, before: &[u32], after: &[u32]) {
    if code != 0 {
        assert!(number == 0 && before == after, "{call:?} was refused with {code} and number {number}, or changed words");
    }
}

/// How often each code was seen, those that were.
pub fn by_code(codes: &[u64]) -> String {
    let seen: Vec<String> = (0..).zip(codes).filter(|(_, &times)| times > 0).map(|(code, times)| format!("{code}: {times}")).collect();
    seen.join(", ")
}

/// How often each answer was seen.
#[derive(Default)]
pub struct Seen {
    pub commands: u64,
    /// By operation and code.
    pub codes: [[u64; 13]; 9],
    /// Accepted steps by kind.
    pub kinds: [u64; 9],
    pub settle_steps: u64,
    /// Spans counted, and deleted, by how many keys they have: none, one, more.
    pub counted: [u64; 3],
    pub deleted: [u64; 3],
}

impl Seen {
    fn add(&mut self, command: Command, (code, number): Answer) {
        self.commands += 1;
        self.codes[command.numbers()[0] as usize][code as usize] += 1;
        match command {
            Command::Step(_, kind) if code == 0 => self.kinds[kind as usize] += 1,
            Command::Settle(_) => self.settle_steps += u64::from(number),
            Command::Count(..) => self.counted[number.min(2) as usize] += 1,
            Command::DeleteSpan(..) => self.deleted[number.min(2) as usize] += 1,
            _ => {}
        }
    }
}

/// A pool's words, which the library changes, and the set that the twin has for them.
#[derive(Clone)]
pub struct Pair {
    pub words: Vec<u32>,
    pub twin: Set,
}

impl Pair {
    pub fn prepared(slots: usize) -> Pair {
        let mut words: Vec<u32> = (0..4 + 4 * slots as u32).map(|i| i.wrapping_mul(0x9E37_79B9)).collect();
        assert_eq!(raw::prepare(&mut words), twin::prepare(&mut words.clone()), "prepare {slots} slots");
        Pair::of(words, Set::prepared(slots))
    }

    pub fn holding(twin: Set) -> Pair {
        Pair::of(twin.words(), twin)
    }

    fn of(words: Vec<u32>, twin: Set) -> Pair {
        let pair = Pair { words, twin };
        pair.audit();
        pair
    }

    pub fn header(&self) -> [u32; 4] {
        self.slot(0)
    }

    pub fn slot(&self, slot: usize) -> [u32; 4] {
        self.words[4 * slot..4 * slot + 4].try_into().unwrap()
    }

    pub fn report(&self) -> [u64; 7] {
        std::array::from_fn(|i| raw::report(&self.words, i as u32 + 1))
    }

    /// The words are the twin's, and pass both audits; and the fourth is L, as it is counted here.
    fn audit(&self) {
        assert_eq!(self.words, self.twin.words(), "pool");
        assert_eq!(raw::audit(&self.words), 0, "audit of {:?}", self.words);
        assert_eq!(twin::audit(&self.words), 0, "the twin's audit of {:?}", self.words);
        assert_level(&self.words);
    }

    /// All that can be asked, the third number also off the words, and that the twin reads back its own set.
    pub fn look(&self) {
        assert_eq!(same_on(&self.words), 0);
        assert_eq!(self.report()[2], overweight(&self.words).1, "the excess weight of {:?}", self.words);
        assert_eq!(twin::read(&self.words).as_ref(), Ok(&self.twin), "the set read back");
    }

    /// One command in a batch of its own, by both; then the audit.
    pub fn run(&mut self, command: Command) -> Answer {
        let mut answer = [UNTOUCHED; 3];
        let before = self.words.clone();
        let whole = library_batch(&mut self.words, &Command::all(&[command]), &mut answer);
        assert_eq!(whole, (0, 0), "{command:?} on {before:?}");
        let want = self.twin.run(command);
        assert_eq!((answer[0], answer[1]), want, "{command:?} on {before:?}");
        assert_eq!(answer[2], UNTOUCHED, "{command:?} wrote past its answer");
        assert_eq!(self.words, self.twin.words(), "pool after {command:?} on {before:?}");
        if (1..=11).contains(&want.0) {
            assert_eq!(self.words, before, "{command:?} was refused with {} and changed the pool", want.0);
        }
        self.audit();
        want
    }

    /// May_send or clear_notice, by both; then the audit.
    pub fn call(&mut self, call: Call) -> Answer {
        let before = self.words.clone();
        let got = library_call(&mut self.words, call);
        let want = self.twin.call(call);
        assert_eq!(got, want, "{call:?} on {before:?}");
        assert_eq!(self.words, self.twin.words(), "pool after {call:?} on {before:?}");
        assert_refusal_is_empty(call, got, &before, &self.words);
        self.audit();
        want
    }

    /// Saved and read back by both, into words that mean nothing.
    pub fn restart(&mut self) {
        let (_, saved) = same_save(&self.words, 4 + 7 * self.twin.slots);
        let (answer, words) = same_load(&vec![UNTOUCHED; self.words.len()], &saved);
        assert_eq!(answer, (0, self.twin.nodes()), "load of {saved:02X?}");
        let twin = twin::read(&words).expect("a sound pool");
        *self = Pair::of(words, twin);
    }

    /// The same, counted.
    pub fn run_seen(&mut self, command: Command, seen: &mut Seen) -> Answer {
        let answer = self.run(command);
        seen.add(command, answer);
        answer
    }

    pub fn insert_all(&mut self, keys: &[u32]) -> Vec<Answer> {
        keys.iter().map(|&key| self.run(Command::Insert(key))).collect()
    }
}
