//! The pool and its calls.

use crate::answer::{how_many, Answer, Deleted, Found, Inserted, Mark, Refused, Searched, Settled, Stepped};
use crate::batch::{Batch, Command, Kind};
use crate::ledger::{MaySend, Text};
use crate::{layout, raw};
use core::fmt;
use core::iter::FusedIterator;
use core::ops::{DerefMut, RangeInclusive};

const ANSWER_WORDS: usize = 2;

/// What can hold a pool's words: lent ones (`&mut [u32]`) or ones that the pool owns (`Box<[u32]>`, `Vec<u32>`). It is
/// there for all that dereferences to a slice of words, the same one each time. An array is lent as `&mut words[..]`; handed
/// over it would be copied, and the marks with it, so that is not allowed.
#[diagnostic::on_unimplemented(
    message = "`{Self}` cannot hold a pool's words",
    note = "lend an array as `&mut words[..]`; a pool can own a `Box<[u32]>` or a `Vec<u32>`"
)]
pub trait Words: DerefMut<Target = [u32]> {}

impl<W: DerefMut<Target = [u32]>> Words for W {}

/// A set of keys in words that passed the audit, lent (`Pool<&mut [u32]>`) or owned (`Pool<Box<[u32]>>`); a function over
/// either takes `&mut Pool<impl Words>`. While the pool lives nobody else can write the words, and every call keeps the
/// audit rules, so they hold until it is dropped.
///
/// A pool has C slots, from 1 to 16,383. C slots hold (C+1)/2 keys: 1 holds 1, 127 hold 64, 16,383 hold 8,192.
///
/// A call takes up to 88 bytes of stack for each slot (measured on x86-64): a thread of 2 MiB, as Rust makes them, is enough for
/// any pool, and one of 256 KiB for 1,023 slots.
///
/// Proved: `passes_after`, `history_passing` (a call leaves a pool that passes the audit).
pub struct Pool<W> {
    words: W,
}

/// The report's seven numbers.
#[derive(Clone, Copy, Debug, PartialEq, Eq)]
#[non_exhaustive]
pub struct Report {
    /// N, the slots in the tree.
    pub nodes: u64,
    /// L, the sum of weights from the root, whose own does not count, to any leaf.
    pub level: u64,
    /// The excess weight: the sum of weight less one over the overweighted edges, those above weight 1, which is o(T) of Nurmi
    /// and Soisalon-Soininen's paper. One leaf of weight 9 gives 8, and eight units have to be worked off. It is 0 exactly where
    /// no edge is overweighted; no step raises it, and settling to the end takes at least half as many steps.
    ///
    /// Proved: `excess_returned`, `excess_none_returned`, `excess_as_paper`, `steps_work`, `settle_takes`.
    pub excess_weight: u64,
    /// R, the red-red conflicts.
    pub conflicts: u64,
    /// D, the sum of (weight - 1) times the nodes outside, over overweighted edges.
    pub over_distance: u64,
    /// Q, the sum of the conflicts' distances.
    pub red_distance: u64,
    /// (3N+1)D + 2NR + Q.
    pub bound: u64,
}

impl Report {
    /// Keys in the set: the leaves among N nodes.
    #[must_use]
    pub fn keys(&self) -> u64 {
        keys_of(self.nodes)
    }

    /// Whether no step is allowed.
    ///
    /// Proved: `none_accepted`, `some_accepted`.
    #[must_use]
    pub fn red_black(&self) -> bool {
        self.conflicts == 0 && self.excess_weight == 0
    }

    /// A budget with which settle ends, if one fits a command: no more than `bound` steps can be accepted before the
    /// next update: an insert, a delete, a delete of a span that takes a key, a yes of the send limit, or a clearing that takes a mark.
    ///
    /// Proved: `settle_enough`, `settle_falls`.
    #[must_use]
    pub fn settle_budget(&self) -> u32 {
        u32::try_from(self.bound).unwrap_or(u32::MAX)
    }
}

/// The leaves of a tree of so many nodes.
fn keys_of(nodes: u64) -> u64 {
    nodes.div_ceil(2)
}

/// Written `Pool::words_for`, whatever holds the words.
impl Pool<&mut [u32]> {
    /// The most slots of a pool, 16,383. They hold 8,192 keys.
    pub const MOST_SLOTS: usize = layout::MOST_SLOTS;

    /// The words of a pool of `slots` slots, which hold (slots + 1)/2 keys: 127 slots hold 64 keys. For K keys take
    /// 2K - 1 slots. The most slots are 256 KiB of words: lend a `Vec` or a `static` then, and no array on the stack.
    ///
    /// # Panics
    /// If `slots` is not from 1 to 16,383. As an array's length it does not compile then.
    #[must_use]
    pub const fn words_for(slots: usize) -> usize {
        layout::words_for(slots)
    }

    /// Bytes that are enough to save any pool of `slots` slots: 7 for each, and 4.
    ///
    /// # Panics
    /// As [`Pool::words_for`].
    ///
    /// Proved: `save_few`.
    #[must_use]
    pub const fn saved_bytes_for(slots: usize) -> usize {
        layout::saved_bytes_for(slots)
    }
}

impl<W: Words> Pool<W> {
    /// Makes an empty set of any words. **Every mark that was in them is gone**, and whoever had a text can get it again:
    /// it is for new words, never an answer to [`Inserted::NoRoom`] or to a refused [`Pool::load`]. Words with a set in them
    /// go to [`Pool::resume`], saved bytes to [`Pool::load`].
    ///
    /// # Errors
    /// [`Refused::WrongLength`] alone; then no word changes. (Words that were handed over are dropped: lend them if you
    /// need them afterwards.)
    pub fn prepare(mut words: W) -> Result<Pool<W>, Refused> {
        Refused::check(raw::prepare(&mut words), 0)?;
        Ok(Pool { words })
    }

    /// Takes up words that hold a set from before: exactly those that keep every audit rule. Changes no word.
    ///
    /// Words of two keys or more that crate 0.6.0 or before left (an archive of interface 5 or before) are refused: their fourth
    /// word is 0, and here it is L. [Save](Pool::save) them with 0.6.0, which takes those from before it too, and [load](Pool::load)
    /// the bytes here. To [prepare](Pool::prepare) them would forget every mark.
    ///
    /// # Errors
    /// [`Refused::WrongLength`] or [`Refused::RulesBroken`]. (Words that were handed over are dropped then: lend them
    /// first if a damaged pool is to be looked at.)
    ///
    /// Proved: `audit_exact`.
    pub fn resume(words: W) -> Result<Pool<W>, Refused> {
        let pool = Pool { words };
        pool.audit()?;
        Ok(pool)
    }

    /// Makes any words the set that [`Pool::save`] wrote: the same keys, routers, shape and weights, so that the next save
    /// writes the same bytes. Slots are numbered anew, from the root: 1, 2, .. and then the free ones.
    ///
    /// The pool has the marks that were set when the bytes were saved, and no later ones: never load older bytes. Where it
    /// is refused, **send nothing and do not begin empty**: [`Pool::prepare`] in its place forgets every mark.
    ///
    /// ```
    /// use chromatic::{Inserted, Pool};
    ///
    /// let mut words = [0; Pool::words_for(127)];
    /// let mut pool = Pool::prepare(&mut words[..])?;
    /// assert!(matches!(pool.insert(4411)?, Inserted::NewlyMarked(_)));
    /// let mut bytes = [0; Pool::saved_bytes_for(127)];
    /// let saved = pool.save(&mut bytes)?; // store this, and then send the text
    ///
    /// let mut other = [77; Pool::words_for(127)]; // after the restart
    /// let mut pool = Pool::load(&mut other[..], saved)?;
    /// assert!(matches!(pool.insert(4411)?, Inserted::KeyPresent));
    /// # Ok::<(), chromatic::Refused>(())
    /// ```
    ///
    /// A load goes as deep as the bytes say, whatever the pool has: a thread that keeps to fewer slots for its stack's sake loads no
    /// bytes but its own.
    ///
    /// # Errors
    /// [`Refused::WrongLength`]; [`Refused::BadSaved`] for bytes that no save writes, with the byte at which they go wrong;
    /// [`Refused::NoFit`] if these are words for another number of slots than were saved. Then no word changes. (Words that were
    /// handed over are dropped.)
    ///
    /// Proved: `load_after_save`, `save_again`, `load_codes`, `load_refused`, `load_returns_place`.
    pub fn load(mut words: W, saved: &[u8]) -> Result<Pool<W>, Refused> {
        let [code, number] = halves(raw::load(&mut words, saved));
        Refused::check(code, number)?;
        Ok(Pool { words })
    }

    /// Writes the set to the beginning of `out`, as bytes that [`Pool::load`] takes, and gives these bytes. **Store what it
    /// gives, and not `out`**: the later bytes of `out` stay as they were, and a load refuses them. Changes no word. The same
    /// set, with the same routers, shape and weights, is always the same bytes.
    ///
    /// [`Pool::saved_bytes_for`] gives room for any pool of so many slots, [`Pool::most_saved_bytes`] for this one as it is.
    /// To be safe over a restart, save after the insert and store the bytes before its text goes out: examples/restart.rs
    /// does.
    ///
    /// # Errors
    /// [`Refused::NoFit`] if the bytes are more than `out` has room for, or as [`Pool::audit`]; then no byte is written.
    ///
    /// Proved: `load_after_save`, `save_same`, `save_codes`, `save_refused`.
    pub fn save<'o>(&self, out: &'o mut [u8]) -> Result<&'o [u8], Refused> {
        let [code, number] = halves(raw::save(self.words(), out));
        Refused::check(code, number)?;
        Ok(&out[..number as usize])
    }

    /// As [`Pool::save`], with the feature `std`: the bytes, in memory of their own.
    ///
    /// ```
    /// use chromatic::Pool;
    ///
    /// let pool = Pool::prepare(vec![0; Pool::words_for(127)])?;
    /// let bytes = pool.save_to_vec()?;
    /// assert_eq!(bytes, [127, 0]); // 127 slots, 0 nodes
    /// assert_eq!(Pool::load(vec![77; Pool::words_for(127)], &bytes)?.words(), pool.words());
    /// # Ok::<(), chromatic::Refused>(())
    /// ```
    ///
    /// # Errors
    /// As [`Pool::audit`].
    #[cfg(feature = "std")]
    pub fn save_to_vec(&self) -> Result<std::vec::Vec<u8>, Refused> {
        let mut bytes = std::vec![0; self.most_saved_bytes()?];
        let count = self.save(&mut bytes)?.len();
        bytes.truncate(count);
        Ok(bytes)
    }

    /// Bytes that are enough to save this pool as it is: 7 for each node in the tree, and 4.
    ///
    /// # Errors
    /// As [`Pool::audit`].
    ///
    /// Proved: `save_few`.
    pub fn most_saved_bytes(&self) -> Result<usize, Refused> {
        self.figure(1).map(|nodes| layout::saved_bytes(nodes as usize))
    }

    /// The words as they are, to be looked at. To keep a set over a restart there are [`Pool::save`] and [`Pool::load`];
    /// whoever stores the words themselves does so after the insert and before its text goes out too, and never takes up an
    /// older copy.
    pub fn words(&self) -> &[u32] {
        &self.words
    }

    /// Gives the words back, with the set in them.
    pub fn into_words(self) -> W {
        self.words
    }

    /// C, the slots, which hold (C+1)/2 keys.
    pub fn slots(&self) -> usize {
        layout::slots_in(self.words().len())
    }

    /// How many keys fit, (C+1)/2. With this many in the set every insert of another answers [`Inserted::NoRoom`].
    pub fn most_keys(&self) -> usize {
        self.slots().div_ceil(2)
    }

    /// Looks through the whole pool again.
    ///
    /// # Errors
    /// [`Refused::RulesBroken`] if a rule is broken, [`Refused::WrongLength`] if the length is another: only a `W` of one's
    /// own could have done that.
    ///
    /// Proved: `audit_exact`.
    pub fn audit(&self) -> Result<(), Refused> {
        Refused::check(raw::audit(self.words()), 0)
    }

    /// The seven numbers, each from a call of its own.
    ///
    /// # Errors
    /// As [`Pool::audit`]. (The library's own report gives zeros then.)
    pub fn report(&self) -> Result<Report, Refused> {
        Ok(Report {
            nodes: self.figure(1)?,
            level: self.number(2),
            excess_weight: self.number(3),
            conflicts: self.number(4),
            over_distance: self.number(5),
            red_distance: self.number(6),
            bound: self.number(7),
        })
    }

    /// The report's seventh number alone: no more steps than this can be accepted before the next update: an insert, a delete, a delete of
    /// a span that takes a key, a yes of the send limit, or a clearing that takes a mark.
    ///
    /// # Errors
    /// As [`Pool::audit`].
    pub fn bound(&self) -> Result<u64, Refused> {
        self.figure(7)
    }

    /// How many keys are in the set.
    ///
    /// # Errors
    /// As [`Pool::audit`].
    pub fn keys(&self) -> Result<u64, Refused> {
        self.figure(1).map(keys_of)
    }

    /// One number of the report. The library gives 0 for a refused pool too, so a 0 is looked into.
    fn figure(&self, index: u32) -> Result<u64, Refused> {
        let number = self.number(index);
        if number == 0 {
            self.audit()?;
        }
        Ok(number)
    }

    fn number(&self, index: u32) -> u64 {
        raw::report(self.words(), index)
    }

    /// Runs the batch's commands in order. The answers come in the same order, one for each command.
    ///
    /// **The marks are set when this returns, before any text goes out.** Read every answer: a list that is dropped, or
    /// a loop that is left by `break` or `?`, leaves keys marked whose texts nobody sends.
    ///
    /// Over any runs since [`Pool::prepare`], a search finds exactly the keys that were inserted with
    /// [`Inserted::NewlyMarked`] and not since deleted with [`Deleted::Cleared`] or with a span that they are in.
    ///
    /// # Errors
    /// As [`Pool::audit`]; then nothing ran.
    ///
    /// Proved: `history`, `refused_keeps`, `batch_decides`.
    pub fn run<'b>(&mut self, batch: &'b Batch) -> Result<Answers<'b>, Refused> {
        let mut bytes = [0; Batch::LONGEST];
        let len = batch.write(&mut bytes);
        let mut answers = Answers { commands: batch.commands(), words: [0; ANSWER_WORDS * Batch::MOST], next: 0 };
        self.run_bytes(&bytes[..len], &mut answers.words)?;
        Ok(answers)
    }

    /// Runs a batch that is bytes already, into lent answer words: two for each command, a code and a number; later
    /// words stay. No [`Mark`] comes of it: who sends by these words has to tell code 5 from code 7 without the types.
    ///
    /// # Errors
    /// [`Refused::BadCommand`] with the byte at which the batch goes wrong, [`Refused::FewAnswers`], or as [`Pool::audit`]; then
    /// no word of pool or answers changes.
    ///
    /// Proved: `refused_keeps`, `later_words`, `batch_decides`, `batch_returns_place`.
    pub fn run_bytes(&mut self, bytes: &[u8], answers: &mut [u32]) -> Result<(), Refused> {
        let [code, number] = halves(raw::batch(&mut self.words, bytes, answers));
        Refused::check(code, number)
    }

    /// Whether the key is in the set. Changes no word. (It takes `&mut self` since it goes through the library's one call
    /// for commands, which is lent the pool for writing.)
    ///
    /// It is for screens and reports. [`Searched::KeyAbsent`] is no leave to send: [`Pool::insert`] looks and marks in
    /// one call, and says what to do when there is no room for the mark.
    ///
    /// # Errors
    /// As [`Pool::audit`].
    ///
    /// Proved: `search_shows`, `history`.
    pub fn search(&mut self, key: u32) -> Result<Searched, Refused> {
        let [code, number] = self.run_one(Command::Search { key })?;
        Ok(Searched::read(code, number))
    }

    /// Marks the key, unless it is marked already or there is no room. Only [`Inserted::NewlyMarked`] changes words, and
    /// it alone holds a [`Mark`]; the mark is set before the text goes out.
    ///
    /// # Errors
    /// As [`Pool::audit`].
    ///
    /// Proved: `insert_shows`, `history`.
    pub fn insert(&mut self, key: u32) -> Result<Inserted, Refused> {
        let [code, number] = self.run_one(Command::Insert { key })?;
        Ok(Inserted::read(key, code, number))
    }

    /// Takes back a mark whose text did not go out, so that a later insert can mark the key anew.
    ///
    /// It is a delete of the mark's key, so use it where the send failed, on the pool that made the mark. A mark whose key
    /// was deleted and marked again since takes the later mark away, and the text can go twice.
    ///
    /// # Errors
    /// As [`Pool::audit`]. The key stays marked then, and no text goes out for it.
    ///
    /// Proved: `delete_shows`, `history`.
    pub fn withdraw(&mut self, mark: Mark) -> Result<Deleted, Refused> {
        self.delete(mark.key())
    }

    /// Clears the key's mark. Only [`Deleted::Cleared`] changes words. The slots are used again.
    ///
    /// # Errors
    /// As [`Pool::audit`].
    ///
    /// Proved: `delete_shows`, `history`.
    pub fn delete(&mut self, key: u32) -> Result<Deleted, Refused> {
        let [code, number] = self.run_one(Command::Delete { key })?;
        Ok(Deleted::read(code, number))
    }

    /// Takes one step of balancing. Only [`Stepped::Taken`] changes words, and never which keys are in the set.
    ///
    /// # Errors
    /// As [`Pool::audit`].
    ///
    /// Proved: `accepted_iff`, `step_inorder`.
    pub fn step(&mut self, slot: u32, kind: Kind) -> Result<Stepped, Refused> {
        let [code, _] = self.run_one(Command::Step { slot, kind })?;
        Ok(Stepped::read(code))
    }

    /// Takes allowed steps, each at the lowest slot and there of the lowest kind, until none is left or `budget` are
    /// taken. Never changes which keys are in the set.
    ///
    /// # Errors
    /// As [`Pool::audit`].
    ///
    /// Proved: `settle_shows`, `settle_says`.
    pub fn settle(&mut self, budget: u32) -> Result<Settled, Refused> {
        let [code, number] = self.run_one(Command::Settle { budget })?;
        Ok(Settled::read(code, number))
    }

    /// The smallest key of the set at or above this one. Changes no word. (It takes `&mut self` as [`Pool::search`] does.)
    ///
    /// With it a span is walked from key to key, here who was told about notice 4,411. The last 32-bit number has no key after it: `checked_add`
    /// ends the walk there, where `key + 1` would panic or begin again at 0.
    ///
    /// ```
    /// use chromatic::{Found, Inserted, MaySend, Pool, Text};
    ///
    /// let mut words = [0; Pool::words_for(127)];
    /// let mut pool = Pool::prepare(&mut words[..])?;
    /// for resident in [12, 7, 300] {
    ///     assert!(matches!(pool.may_send(Text { notice: 4411, resident }, 1)?, MaySend::Yes(_)));
    /// }
    /// assert!(matches!(pool.insert(u32::MAX)?, Inserted::NewlyMarked(_)));
    ///
    /// let (first, last) = (4411 << 16, 4411 << 16 | 0xFFFF); // every resident, every attempt
    /// let mut told = vec![];
    /// let mut next = Some(first);
    /// while let Some(from) = next {
    ///     match pool.at_or_above(from)? {
    ///         Found::Key(key) if key <= last => {
    ///             told.push(key >> 3 & 0x1FFF);
    ///             next = key.checked_add(1);
    ///         }
    ///         _ => next = None,
    ///     }
    /// }
    /// assert_eq!(told, [7, 12, 300]);
    /// assert_eq!(pool.at_or_above(last)?, Found::Key(u32::MAX));
    /// # Ok::<(), chromatic::Refused>(())
    /// ```
    ///
    /// It is for screens and reports. [`Found::NoneAbove`] is no leave to send, as [`Searched::KeyAbsent`] is none.
    ///
    /// # Errors
    /// As [`Pool::audit`].
    ///
    /// Proved: `batch_at_or_above`, `next_shows`.
    pub fn at_or_above(&mut self, key: u32) -> Result<Found, Refused> {
        let [code, number] = self.run_one(Command::AtOrAbove { key })?;
        Ok(Found::read(code, number))
    }

    /// How many keys of the set are in the span, both ends counting; 0 for an empty range. Changes no word. (It takes `&mut self` as
    /// [`Pool::search`] does.)
    ///
    /// ```
    /// use chromatic::{Inserted, Pool};
    ///
    /// let mut words = [0; Pool::words_for(127)];
    /// let mut pool = Pool::prepare(&mut words[..])?;
    /// for key in [0, 10, 20, u32::MAX] {
    ///     assert!(matches!(pool.insert(key)?, Inserted::NewlyMarked(_)));
    /// }
    /// assert_eq!(pool.count(10..=20)?, 2);
    /// assert_eq!(pool.count(11..=19)?, 0);
    /// assert_eq!(pool.count(0..=u32::MAX)?, 4);
    /// # Ok::<(), chromatic::Refused>(())
    /// ```
    ///
    /// It is for screens and reports: a 0 is no leave to send.
    ///
    /// # Errors
    /// As [`Pool::audit`].
    ///
    /// Proved: `batch_counts`, `count_shows`.
    pub fn count(&mut self, span: RangeInclusive<u32>) -> Result<u32, Refused> {
        let [code, number] = self.run_one(Command::count(span))?;
        Ok(how_many(code, number))
    }

    /// Clears the marks of all keys in the span, the smallest first, both ends counting, and gives how many went; 0 for an empty range and for
    /// a span without a key. The words afterwards are those that as many calls of [`Pool::delete`] leave, in that order. The slots are used
    /// again. Nothing is settled.
    ///
    /// **Whoever had a text by one of these keys can get it again**, as after [`Pool::delete`], and a [`Mark`] of one of them is
    /// out of date. So it is for what is over, and never to make room. A notice that is over is cleared with [`Pool::clear_notice`], which
    /// knows its keys and spares others.
    ///
    /// ```
    /// use chromatic::{Inserted, Pool, Searched};
    ///
    /// let mut words = [0; Pool::words_for(127)];
    /// let mut pool = Pool::prepare(&mut words[..])?;
    /// for key in [10, 20, 30, u32::MAX] {
    ///     assert!(matches!(pool.insert(key)?, Inserted::NewlyMarked(_)));
    /// }
    /// assert_eq!(pool.delete_span(20..=u32::MAX)?, 3);
    /// assert_eq!(pool.delete_span(20..=u32::MAX)?, 0);
    /// assert_eq!((pool.search(20)?, pool.keys()?), (Searched::KeyAbsent, 1));
    /// # Ok::<(), chromatic::Refused>(())
    /// ```
    ///
    /// # Errors
    /// As [`Pool::audit`]; then no word changes.
    ///
    /// Proved: `batch_deletes_span`, `batch_deletes_singly`, `history`.
    pub fn delete_span(&mut self, span: RangeInclusive<u32>) -> Result<u32, Refused> {
        let [code, number] = self.run_one(Command::delete_span(span))?;
        Ok(how_many(code, number))
    }

    /// Asks whether one more text may go, and marks it in the same call. [`MaySend::Yes`] has the [`Permit`](crate::Permit) of
    /// the lowest attempt from 1 to `limit` that is not marked, and is given exactly when there is one and the set has room
    /// for its mark. Marks above the limit do not count, and a gap below it is filled. Only a yes changes words. Nothing is
    /// settled.
    ///
    /// From an empty set, over any calls with one limit and whatever searches, steps and settles between them, a resident gets
    /// at most `limit` permits for a notice until it is [cleared](Pool::clear_notice); with several limits, at most as many as
    /// the largest. **No resident gets a text again because the set is full**: then every answer that is not
    /// [`MaySend::AllUsed`] is [`MaySend::NoRoom`].
    ///
    /// ```
    /// use chromatic::{MaySend, Permit, Pool, Text};
    ///
    /// fn send(permit: Permit) {
    ///     println!("notice {} to resident {}, text {}", permit.notice(), permit.resident(), permit.attempt());
    /// }
    ///
    /// let mut words = [0; Pool::words_for(127)]; // 127 slots hold 64 marks
    /// let mut pool = Pool::prepare(&mut words[..])?;
    /// match pool.may_send(Text { notice: 4411, resident: 12 }, 3)? {
    ///     MaySend::Yes(permit) => send(permit), // save and store the set before
    ///     MaySend::AllUsed => println!("all three are used: no text"),
    ///     MaySend::NoRoom => println!("cannot be marked: no text, call the desk"),
    /// }
    /// # Ok::<(), chromatic::Refused>(())
    /// ```
    ///
    /// # Errors
    /// [`Refused::OutOfRange`] for a notice, resident or limit that is not in its range ([`Text`] has them), or as
    /// [`Pool::audit`]; then no word changes.
    ///
    /// Proved: `send_codes`, `yes_returned`, `full_returned`, `texts_in_calls`.
    pub fn may_send(&mut self, text: Text, limit: u32) -> Result<MaySend, Refused> {
        let [code, number] = halves(raw::may_send(&mut self.words, text.notice, text.resident, limit));
        MaySend::read(text, code, number)
    }

    /// Clears a notice that is over: deletes its marks, attempts 1 to 7 of every resident, the smallest key first, and gives
    /// how many went; 0 if it had none. No other key goes, not even one of the notice's with attempt 0, which is no
    /// text's. The slots are used again. Nothing is settled.
    ///
    /// **The notice's count begins afresh**: whoever had its texts can get as many again. So take it from what is sent first,
    /// and store that before; a notice that still stands is never cleared to make room.
    ///
    /// # Errors
    /// [`Refused::OutOfRange`] for a notice that is not in [`Text::NOTICES`], or as [`Pool::audit`]; then no word changes.
    ///
    /// Proved: `clear_says`, `clear_codes`.
    pub fn clear_notice(&mut self, notice: u32) -> Result<u32, Refused> {
        let [code, number] = halves(raw::clear_notice(&mut self.words, notice));
        Refused::check(code, number)?;
        Ok(number)
    }

    fn run_one(&mut self, command: Command) -> Result<[u32; ANSWER_WORDS], Refused> {
        let mut bytes = [0; Command::LONGEST];
        let len = command.write(&mut bytes);
        let mut answer = [0; ANSWER_WORDS];
        self.run_bytes(&bytes[..len], &mut answer)?;
        Ok(answer)
    }
}

/// The number of slots; the words are some thousands, and [`Pool::words`] has them.
impl<W: Words> fmt::Debug for Pool<W> {
    fn fmt(&self, f: &mut fmt::Formatter<'_>) -> fmt::Result {
        f.debug_struct("Pool").field("slots", &self.slots()).finish_non_exhaustive()
    }
}

/// Code and number of a call: "its code times 4,294,967,296 plus its number".
fn halves(answer: u64) -> [u32; 2] {
    [(answer >> 32) as u32, answer as u32]
}

/// The answers to a batch, in its order; each is given out once. The marks in it are set already: read it to its end.
#[must_use = "which keys were marked is in here: a dropped list loses their texts"]
pub struct Answers<'b> {
    commands: &'b [Command],
    words: [u32; ANSWER_WORDS * Batch::MOST],
    next: usize,
}

impl Iterator for Answers<'_> {
    type Item = Answer;

    fn next(&mut self) -> Option<Answer> {
        let command = *self.commands.get(self.next)?;
        let at = self.next * ANSWER_WORDS;
        self.next += 1;
        Some(Answer::read(command, self.words[at], self.words[at + 1]))
    }

    fn size_hint(&self) -> (usize, Option<usize>) {
        let left = self.commands.len() - self.next;
        (left, Some(left))
    }
}

/// `len` is the number of answers that are not yet read.
impl ExactSizeIterator for Answers<'_> {}

impl FusedIterator for Answers<'_> {}

/// How many answers are left, and to which commands. (An answer is given out once, and not by this.)
impl fmt::Debug for Answers<'_> {
    fn fmt(&self, f: &mut fmt::Formatter<'_>) -> fmt::Result {
        f.debug_struct("Answers").field("left", &self.len()).field("to", &&self.commands[self.next..]).finish_non_exhaustive()
    }
}
