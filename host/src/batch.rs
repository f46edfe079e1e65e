//! What the host asks: commands, and the bytes that carry them.

use core::fmt;
use core::ops::RangeInclusive;

/// The kind of a step, 1 to 8 in the table of docs/RULES.md. With this type code 9, "kind not 1 to 8", cannot occur.
#[derive(Clone, Copy, Debug, PartialEq, Eq)]
#[allow(missing_docs)]
pub enum Kind {
    One = 1,
    Two = 2,
    Three = 3,
    Four = 4,
    Five = 5,
    Six = 6,
    Seven = 7,
    Eight = 8,
}

impl Kind {
    /// All eight, in order.
    pub const ALL: [Kind; 8] = [Kind::One, Kind::Two, Kind::Three, Kind::Four, Kind::Five, Kind::Six, Kind::Seven, Kind::Eight];
}

impl From<Kind> for u32 {
    fn from(kind: Kind) -> u32 {
        kind as u32
    }
}

impl TryFrom<u32> for Kind {
    type Error = NoKind;

    fn try_from(number: u32) -> Result<Kind, NoKind> {
        Kind::ALL.into_iter().find(|&kind| u32::from(kind) == number).ok_or(NoKind { number })
    }
}

/// A number that is no [`Kind`]: the kinds are 1 to 8.
#[derive(Clone, Copy, Debug, PartialEq, Eq)]
pub struct NoKind {
    /// The number.
    pub number: u32,
}

impl fmt::Display for NoKind {
    fn fmt(&self, f: &mut fmt::Formatter<'_>) -> fmt::Result {
        write!(f, "{} is no kind of step: the kinds are 1 to 8", self.number)
    }
}

impl core::error::Error for NoKind {}

/// One command of a batch. It does nothing before [`Pool::run`](crate::Pool::run).
#[derive(Clone, Copy, Debug, PartialEq, Eq)]
#[non_exhaustive]
#[allow(missing_docs)]
pub enum Command {
    Search { key: u32 },
    Insert { key: u32 },
    Delete { key: u32 },
    Step { slot: u32, kind: Kind },
    Settle { budget: u32 },
    AtOrAbove { key: u32 },
    Count { first: u32, last: u32 },
    DeleteSpan { first: u32, last: u32 },
}

/// "at most 4,294,967,295" in seven-bit groups.
const LONGEST_NUMBER: usize = 5;

impl Command {
    /// The most bytes that a command of a good batch takes: an operation and two arguments.
    pub const LONGEST: usize = 1 + 2 * LONGEST_NUMBER;

    /// The operation's number and its arguments; the second is missing where the operation has but one.
    fn numbers(self) -> (u32, u32, Option<u32>) {
        match self {
            Command::Search { key } => (1, key, None),
            Command::Insert { key } => (2, key, None),
            Command::Delete { key } => (3, key, None),
            Command::Step { slot, kind } => (4, slot, Some(kind.into())),
            Command::Settle { budget } => (5, budget, None),
            Command::AtOrAbove { key } => (6, key, None),
            Command::Count { first, last } => (7, first, Some(last)),
            Command::DeleteSpan { first, last } => (8, first, Some(last)),
        }
    }

    /// "the number of keys from a to b"
    pub(crate) fn count(span: RangeInclusive<u32>) -> Command {
        let [first, last] = ends(span);
        Command::Count { first, last }
    }

    /// "delete all keys from a to b"
    pub(crate) fn delete_span(span: RangeInclusive<u32>) -> Command {
        let [first, last] = ends(span);
        Command::DeleteSpan { first, last }
    }

    /// Writes the command at the beginning of `bytes`, which has room for it, and gives how many bytes it took.
    pub(crate) fn write(self, bytes: &mut [u8]) -> usize {
        let (operation, first, second) = self.numbers();
        let mut len = write_number(operation, bytes);
        len += write_number(first, &mut bytes[len..]);
        if let Some(second) = second {
            len += write_number(second, &mut bytes[len..]);
        }
        len
    }
}

/// The first key of a span and the last. A range that was iterated to its end is empty, and need not have its end below its start: then the
/// first is put above the last.
fn ends(span: RangeInclusive<u32>) -> [u32; 2] {
    let empty = span.is_empty();
    let (first, last) = span.into_inner();
    if empty && first <= last {
        [1, 0]
    } else {
        [first, last]
    }
}

/// The shortest form: no group of zeros at the end.
fn write_number(mut value: u32, bytes: &mut [u8]) -> usize {
    let mut len = 0;
    while value >= 0x80 {
        bytes[len] = value as u8 | 0x80;
        value >>= 7;
        len += 1;
    }
    bytes[len] = value as u8;
    len + 1
}

/// The batch has its 256 commands. The one that was pushed is not in it.
#[derive(Clone, Copy, Debug, PartialEq, Eq)]
pub struct Full;

impl fmt::Display for Full {
    fn fmt(&self, f: &mut fmt::Formatter<'_>) -> fmt::Result {
        write!(f, "the batch has its {} commands: run it, and push this one into another", Batch::MOST)
    }
}

impl core::error::Error for Full {}

/// Commands to run in one call, in order. Pushing does nothing to a set: [`Pool::run`](crate::Pool::run) does.
///
/// It writes numbers in their shortest form and holds at most 256 commands, and `run` lends answer room for all of them,
/// so that no batch built here is refused with code 3 or 4.
#[derive(Clone)]
pub struct Batch {
    commands: [Command; Batch::MOST],
    len: usize,
}

impl Batch {
    /// "At most 256 commands."
    pub const MOST: usize = 256;
    /// The most bytes of a good batch.
    pub const LONGEST: usize = Batch::MOST * Command::LONGEST;

    /// A batch without commands, which is good and changes nothing.
    pub const fn new() -> Batch {
        Batch { commands: [Command::Search { key: 0 }; Batch::MOST], len: 0 }
    }

    /// Puts a command at the end. Its answer is the one at the same place in [`Answers`](crate::Answers).
    ///
    /// # Errors
    /// [`Full`] if there are 256 commands already, and so for every `push_..`; the batch stays as it is.
    pub fn push(&mut self, command: Command) -> Result<(), Full> {
        let place = self.commands.get_mut(self.len).ok_or(Full)?;
        *place = command;
        self.len += 1;
        Ok(())
    }

    /// Pushes "is the key in the set?"
    ///
    /// # Errors
    /// As [`Batch::push`].
    pub fn push_search(&mut self, key: u32) -> Result<(), Full> {
        self.push(Command::Search { key })
    }

    /// Pushes "mark the key".
    ///
    /// # Errors
    /// As [`Batch::push`].
    pub fn push_insert(&mut self, key: u32) -> Result<(), Full> {
        self.push(Command::Insert { key })
    }

    /// Pushes "clear the key's mark".
    ///
    /// # Errors
    /// As [`Batch::push`].
    pub fn push_delete(&mut self, key: u32) -> Result<(), Full> {
        self.push(Command::Delete { key })
    }

    /// Pushes one step of balancing at a slot.
    ///
    /// # Errors
    /// As [`Batch::push`].
    pub fn push_step(&mut self, slot: u32, kind: Kind) -> Result<(), Full> {
        self.push(Command::Step { slot, kind })
    }

    /// Pushes balancing until no step is allowed or `budget` steps are taken.
    ///
    /// # Errors
    /// As [`Batch::push`].
    pub fn push_settle(&mut self, budget: u32) -> Result<(), Full> {
        self.push(Command::Settle { budget })
    }

    /// Pushes "which is the smallest key at or above this one?"
    ///
    /// # Errors
    /// As [`Batch::push`].
    pub fn push_at_or_above(&mut self, key: u32) -> Result<(), Full> {
        self.push(Command::AtOrAbove { key })
    }

    /// Pushes "how many keys has this span?" Both ends belong to it; an empty range counts 0.
    ///
    /// ```
    /// use chromatic::{Answer, Batch, Inserted, Pool};
    ///
    /// let mut pool = Pool::prepare(vec![0; Pool::words_for(127)])?;
    /// for key in [10, 11, 20] {
    ///     assert!(matches!(pool.insert(key)?, Inserted::NewlyMarked(_)));
    /// }
    /// let mut batch = Batch::new();
    /// batch.push_count(10..=19)?;
    /// batch.push_count(20..=29)?;
    /// let counts: Vec<u32> = pool
    ///     .run(&batch)?
    ///     .map(|answer| match answer {
    ///         Answer::Count { answer, .. } => answer,
    ///         other => panic!("not asked: {other:?}"),
    ///     })
    ///     .collect();
    /// assert_eq!(counts, [2, 1]);
    /// # Ok::<(), Box<dyn std::error::Error>>(())
    /// ```
    ///
    /// # Errors
    /// As [`Batch::push`].
    pub fn push_count(&mut self, span: RangeInclusive<u32>) -> Result<(), Full> {
        self.push(Command::count(span))
    }

    /// Pushes "clear the marks of all keys of this span, the smallest first". Both ends belong to it; of an empty range none goes.
    ///
    /// # Errors
    /// As [`Batch::push`].
    pub fn push_delete_span(&mut self, span: RangeInclusive<u32>) -> Result<(), Full> {
        self.push(Command::delete_span(span))
    }

    /// The commands pushed so far.
    pub fn commands(&self) -> &[Command] {
        &self.commands[..self.len]
    }

    /// How many commands there are.
    pub fn len(&self) -> usize {
        self.len
    }

    /// Whether there is none.
    pub fn is_empty(&self) -> bool {
        self.len == 0
    }

    /// Takes all commands out again.
    pub fn clear(&mut self) {
        self.len = 0;
    }

    /// Writes the batch's bytes and gives how many there are.
    pub fn write(&self, bytes: &mut [u8; Batch::LONGEST]) -> usize {
        let mut len = 0;
        for command in self.commands() {
            len += command.write(&mut bytes[len..]);
        }
        len
    }
}

/// The commands as a list.
impl fmt::Debug for Batch {
    fn fmt(&self, f: &mut fmt::Formatter<'_>) -> fmt::Result {
        f.debug_tuple("Batch").field(&self.commands()).finish()
    }
}

impl Default for Batch {
    fn default() -> Batch {
        Batch::new()
    }
}
