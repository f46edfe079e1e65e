//! What the library answers: one type for each operation, with a case for each cause, and no `Option` anywhere.

use crate::batch::{Command, Kind};
use crate::layout;
use crate::ledger::Text;
use core::fmt;

/// Why a call was refused whole. Pool, answers and output are as they were. Its text says what to do.
#[derive(Clone, Copy, Debug, PartialEq, Eq)]
#[must_use = "a refused call did nothing"]
#[non_exhaustive]
pub enum Refused {
    /// Code 1: the pool's length is not 4 + 4C with C from 1 to 16,383. (C slots hold (C+1)/2 keys, 127 hold 64.)
    WrongLength,
    /// Code 2: the pool breaks an audit rule. What it says about marks means nothing: send no text by it. A pool that an archive
    /// of interface 5 or before left with two keys or more breaks one too: [`Pool::resume`](crate::Pool::resume) says how it
    /// comes over.
    RulesBroken,
    /// Code 3: a command is unknown, cut short, not in shortest form, too large, or the 257th.
    BadCommand {
        /// The byte at which the batch goes wrong, counted from 0; at most 2,816. Of a number it is the fifth byte if that is
        /// above 0F; else the end of the batch, one past the last byte, if that cuts it short; else its last byte, a 00, if it is
        /// not in shortest form. Of an unknown operation it is where its number begins, and of the 257th command where that
        /// begins, whatever is wrong inside it.
        ///
        /// Proved: `batch_returns_place`, `batch_place_near`.
        wrong_at: u32,
    },
    /// Code 4: fewer than two answer words per command.
    FewAnswers,
    /// Code 13: no save writes these bytes. They are cut short, damaged, or something else. Which texts went is not known
    /// then: send none, and do not [`prepare`](crate::Pool::prepare) an empty set in their place. Bytes of more slots than
    /// [`MOST_SLOTS`](crate::Pool::MOST_SLOTS), which a later version may have saved, are refused so too: load them with that one.
    /// (0.8.0 and before refuse bytes of more than 1,023 slots.)
    BadSaved {
        /// The byte at which they go wrong, counted from 0. C, N and two numbers for each of N nodes are read before anything is
        /// judged. Of the first bad number it is the fifth byte if that is above 0F; else the end of the bytes, one past the
        /// last, if that cuts it short; else its last byte, a 00, if it is not in shortest form. Where every number reads and no
        /// save writes the whole, bytes left over included, it is the count of the bytes. A place past 32 bits is given as
        /// 4,294,967,295.
        ///
        /// Proved: `load_returns_place`.
        wrong_at: u32,
    },
    /// Code 14: of a save, the output has too little room; of a load, the pool has another number of slots than the one that
    /// was saved.
    NoFit,
    /// Code 15: the notice, the resident or the limit is outside its range ([`Text`](crate::Text) has them). Nothing was marked
    /// or cleared, and no text may go.
    OutOfRange,
}

impl Refused {
    /// The code of [`Refused::WrongLength`].
    pub const WRONG_LENGTH: u32 = 1;
    /// The code of [`Refused::RulesBroken`].
    pub const RULES_BROKEN: u32 = 2;
    /// The code of [`Refused::BadCommand`].
    pub const BAD_COMMAND: u32 = 3;
    /// The code of [`Refused::FewAnswers`].
    pub const FEW_ANSWERS: u32 = 4;
    /// The code of [`Refused::BadSaved`].
    pub const BAD_SAVED: u32 = 13;
    /// The code of [`Refused::NoFit`].
    pub const NO_FIT: u32 = 14;
    /// The code of [`Refused::OutOfRange`].
    pub const OUT_OF_RANGE: u32 = 15;

    /// The code.
    pub fn code(self) -> u32 {
        match self {
            Refused::WrongLength => Refused::WRONG_LENGTH,
            Refused::RulesBroken => Refused::RULES_BROKEN,
            Refused::BadCommand { .. } => Refused::BAD_COMMAND,
            Refused::FewAnswers => Refused::FEW_ANSWERS,
            Refused::BadSaved { .. } => Refused::BAD_SAVED,
            Refused::NoFit => Refused::NO_FIT,
            Refused::OutOfRange => Refused::OUT_OF_RANGE,
        }
    }

    /// The number beside the code: the byte at which a batch or saved bytes go wrong, else 0.
    pub fn number(self) -> u32 {
        match self {
            Refused::BadCommand { wrong_at } | Refused::BadSaved { wrong_at } => wrong_at,
            Refused::WrongLength | Refused::RulesBroken | Refused::FewAnswers | Refused::NoFit | Refused::OutOfRange => 0,
        }
    }

    /// A call's answer, good or refused.
    pub(crate) fn check(code: u32, number: u32) -> Result<(), Refused> {
        match code {
            0 => Ok(()),
            Refused::WRONG_LENGTH => Err(Refused::WrongLength),
            Refused::RULES_BROKEN => Err(Refused::RulesBroken),
            Refused::BAD_COMMAND => Err(Refused::BadCommand { wrong_at: number }),
            Refused::FEW_ANSWERS => Err(Refused::FewAnswers),
            Refused::BAD_SAVED => Err(Refused::BadSaved { wrong_at: number }),
            Refused::NO_FIT => Err(Refused::NoFit),
            Refused::OUT_OF_RANGE => Err(Refused::OutOfRange),
            _ => foreign(code),
        }
    }
}

impl fmt::Display for Refused {
    fn fmt(&self, f: &mut fmt::Formatter<'_>) -> fmt::Result {
        write!(f, "refused with code {}: ", self.code())?;
        match self {
            Refused::WrongLength => {
                write!(f, "the pool's length is not that of 1 to {} slots; Pool::words_for gives it", layout::MOST_SLOTS)
            }
            Refused::RulesBroken => f.write_str(
                "the pool breaks an audit rule; what it says of marks means nothing, send no text by it; if an archive of interface 5 or \
                 before left it, save it with one of interface 5 and load the bytes with this one, and do not prepare it",
            ),
            Refused::BadCommand { wrong_at } => write!(
                f,
                "the batch goes wrong at byte {wrong_at}, counted from 0: there a number is too large or not in shortest form, the batch \
                 ends inside a command, or an unknown operation or the 257th command begins; nothing ran; write the batch anew, with a \
                 Batch, which writes none like it"
            ),
            Refused::FewAnswers => f.write_str("there are fewer than two answer words per command; lend more"),
            Refused::BadSaved { wrong_at } => write!(
                f,
                "these bytes are no saved set: they go wrong at byte {wrong_at}, counted from 0, or, where that is their count, are cut \
                 short or wrong as a whole; which texts went is not known: send none, do not begin empty, put back the bytes of the last \
                 save; if a later version saved them, of more than {} slots, load them with that one",
                layout::MOST_SLOTS
            ),
            Refused::NoFit => f.write_str(
                "it does not fit; to save, lend more room (Pool::saved_bytes_for gives enough); to load, lend words for as many slots as \
                 were saved",
            ),
            Refused::OutOfRange => write!(
                f,
                "the notice is not from {} to {}, the resident not from {} to {}, or the limit not from {} to {}; nothing was marked or \
                 cleared: send no text by it, and put the number right",
                Text::NOTICES.start(),
                Text::NOTICES.end(),
                Text::RESIDENTS.start(),
                Text::RESIDENTS.end(),
                Text::LIMITS.start(),
                Text::LIMITS.end()
            ),
        }
    }
}

impl core::error::Error for Refused {}

/// A search's answer. Neither case allows a text: only [`Inserted::NewlyMarked`] and [`MaySend::Yes`](crate::MaySend::Yes) do.
#[derive(Clone, Copy, Debug, PartialEq, Eq)]
#[must_use = "whether the key is marked is in here"]
#[non_exhaustive]
pub enum Searched {
    /// Code 0: the key is in the set.
    Marked {
        /// Its leaf's slot.
        slot: u32,
    },
    /// Code 6: the key is not in the set. Whether it can be, [`Pool::insert`](crate::Pool::insert) says.
    KeyAbsent,
}

impl Searched {
    /// The code of [`Searched::KeyAbsent`], of [`Deleted::KeyAbsent`], and of [`Found::NoneAbove`].
    pub const KEY_ABSENT: u32 = 6;
}

/// The mark that one insert made. It cannot be made up, copied or cloned; a `fn send(mark: Mark)` uses it up.
///
/// The key is in the set already. Whoever drops the mark loses its text: nobody will be given another mark for that key
/// until it is deleted. If the text did not go out, give the mark to [`Pool::withdraw`](crate::Pool::withdraw).
#[derive(Debug)]
#[must_use = "the key is marked: send its text with this mark, or withdraw it"]
pub struct Mark {
    key: u32,
    slot: u32,
}

impl Mark {
    /// The key that was marked.
    pub fn key(&self) -> u32 {
        self.key
    }

    /// The slot that the key's leaf had when the mark was made. Later inserts and deletes move leaves.
    pub fn slot(&self) -> u32 {
        self.slot
    }
}

/// An insert's answer. Three cases with three meanings, none of which is "it failed", which could be read as "not yet".
/// They cannot be compared with `==` or `!=`: a `match` names all three.
#[derive(Debug)]
#[must_use = "whether the key is marked is in here: match all three cases"]
pub enum Inserted {
    /// Code 0: the key was absent, and this call marked it. The mark is there before its text is: at most one text goes
    /// out, and none if the mark is lost.
    NewlyMarked(Mark),
    /// Code 5: the key was in the set before. No text: it had its mark.
    KeyPresent,
    /// Code 7: the key is not in the set and no slots are left for it. Asking again changes nothing, until a delete
    /// makes room. No text may go: nothing would remember it.
    NoRoom,
}

impl Inserted {
    /// The code of [`Inserted::KeyPresent`].
    pub const KEY_PRESENT: u32 = 5;
    /// The code of [`Inserted::NoRoom`], and of [`MaySend::NoRoom`](crate::MaySend::NoRoom).
    pub const NO_ROOM: u32 = 7;
}

/// A delete's answer.
#[derive(Clone, Copy, Debug, PartialEq, Eq)]
#[must_use = "whether the key was in the set is in here"]
#[non_exhaustive]
pub enum Deleted {
    /// Code 0: the key was in the set and no longer is.
    Cleared {
        /// How many keys the set still has.
        keys_left: u32,
    },
    /// Code 6: the key was not in the set.
    KeyAbsent,
}

/// A step's answer.
#[derive(Clone, Copy, Debug, PartialEq, Eq)]
#[must_use = "whether the step was taken is in here"]
#[non_exhaustive]
pub enum Stepped {
    /// Code 0: the step was taken.
    Taken,
    /// Code 8: the slot is 0, above C, free or a leaf.
    NoInnerNode,
    /// Code 10: the kind's condition does not hold there.
    ConditionFalse,
    /// Code 11: kind 1 at the root would raise L above 255.
    TooTall,
}

impl Stepped {
    /// The code of [`Stepped::NoInnerNode`].
    pub const NO_INNER_NODE: u32 = 8;
    /// "kind not 1 to 8"; no [`Kind`] gets it.
    pub const NO_KIND: u32 = 9;
    /// The code of [`Stepped::ConditionFalse`].
    pub const CONDITION_FALSE: u32 = 10;
    /// The code of [`Stepped::TooTall`].
    pub const TOO_TALL: u32 = 11;
}

/// A settle's answer. Its steps stand in both cases.
#[derive(Clone, Copy, Debug, PartialEq, Eq)]
#[must_use = "whether the tree is red-black is in here"]
#[non_exhaustive]
pub enum Settled {
    /// Code 0: no step is allowed any more; the tree is red-black.
    RedBlack {
        /// Steps taken.
        steps: u32,
    },
    /// Code 12: the budget is spent and a step is still allowed. Not a refusal: settle again when there is time.
    BudgetSpent {
        /// Steps taken, which is the budget.
        steps: u32,
    },
}

impl Settled {
    /// The code of [`Settled::BudgetSpent`].
    pub const BUDGET_SPENT: u32 = 12;
}

/// What [`Pool::at_or_above`](crate::Pool::at_or_above) answers. Neither case allows a text: only [`Inserted::NewlyMarked`] and [`MaySend::Yes`](crate::MaySend::Yes) do.
#[derive(Clone, Copy, Debug, PartialEq, Eq)]
#[must_use = "which key comes next is in here"]
#[non_exhaustive]
pub enum Found {
    /// Code 0: the smallest key of the set that is at or above the one asked for.
    Key(u32),
    /// Code 6: every key of the set is below the one asked for, or there is none at all.
    NoneAbove,
}

/// A command of a batch with its answer. A refused command changed no pool word and did not stop those after it. The answer to
/// a count is how many keys the span has, to a delete of a span how many it had, which are gone.
#[derive(Debug)]
#[must_use = "which keys were marked is in here"]
#[non_exhaustive]
#[allow(missing_docs)]
pub enum Answer {
    Search { key: u32, answer: Searched },
    Insert { key: u32, answer: Inserted },
    Delete { key: u32, answer: Deleted },
    Step { slot: u32, kind: Kind, answer: Stepped },
    Settle { budget: u32, answer: Settled },
    AtOrAbove { key: u32, answer: Found },
    Count { first: u32, last: u32, answer: u32 },
    DeleteSpan { first: u32, last: u32, answer: u32 },
}

impl Answer {
    /// The command's answer from its two words.
    pub(crate) fn read(command: Command, code: u32, number: u32) -> Answer {
        match command {
            Command::Search { key } => Answer::Search { key, answer: Searched::read(code, number) },
            Command::Insert { key } => Answer::Insert { key, answer: Inserted::read(key, code, number) },
            Command::Delete { key } => Answer::Delete { key, answer: Deleted::read(code, number) },
            Command::Step { slot, kind } => Answer::Step { slot, kind, answer: Stepped::read(code) },
            Command::Settle { budget } => Answer::Settle { budget, answer: Settled::read(code, number) },
            Command::AtOrAbove { key } => Answer::AtOrAbove { key, answer: Found::read(code, number) },
            Command::Count { first, last } => Answer::Count { first, last, answer: how_many(code, number) },
            Command::DeleteSpan { first, last } => Answer::DeleteSpan { first, last, answer: how_many(code, number) },
        }
    }
}

impl Searched {
    pub(crate) fn read(code: u32, number: u32) -> Searched {
        match code {
            0 => Searched::Marked { slot: number },
            Searched::KEY_ABSENT => Searched::KeyAbsent,
            _ => foreign(code),
        }
    }
}

impl Inserted {
    pub(crate) fn read(key: u32, code: u32, number: u32) -> Inserted {
        match code {
            0 => Inserted::NewlyMarked(Mark { key, slot: number }),
            Inserted::KEY_PRESENT => Inserted::KeyPresent,
            Inserted::NO_ROOM => Inserted::NoRoom,
            _ => foreign(code),
        }
    }
}

impl Deleted {
    pub(crate) fn read(code: u32, number: u32) -> Deleted {
        match code {
            0 => Deleted::Cleared { keys_left: number },
            Searched::KEY_ABSENT => Deleted::KeyAbsent,
            _ => foreign(code),
        }
    }
}

impl Stepped {
    pub(crate) fn read(code: u32) -> Stepped {
        match code {
            0 => Stepped::Taken,
            Stepped::NO_INNER_NODE => Stepped::NoInnerNode,
            Stepped::CONDITION_FALSE => Stepped::ConditionFalse,
            Stepped::TOO_TALL => Stepped::TooTall,
            _ => foreign(code),
        }
    }
}

impl Settled {
    pub(crate) fn read(code: u32, number: u32) -> Settled {
        match code {
            0 => Settled::RedBlack { steps: number },
            Settled::BUDGET_SPENT => Settled::BudgetSpent { steps: number },
            _ => foreign(code),
        }
    }
}

impl Found {
    pub(crate) fn read(code: u32, number: u32) -> Found {
        match code {
            0 => Found::Key(number),
            Searched::KEY_ABSENT => Found::NoneAbove,
            _ => foreign(code),
        }
    }
}

/// The answer to a count or a delete of a span, which is refused never.
pub(crate) fn how_many(code: u32, number: u32) -> u32 {
    match code {
        0 => number,
        _ => foreign(code),
    }
}

/// The library is proved to give no such code, so some other archive was linked. Stopping sends no text.
#[cold]
fn foreign(code: u32) -> ! {
    panic!("code {code} does not belong to this operation: the archive is not the chromatic library")
}

#[cfg(test)]
mod tests {
    extern crate std;
    use super::*;
    use crate::ledger::MaySend;
    use std::boxed::Box;
    use std::panic::{catch_unwind, set_hook, take_hook};
    use std::vec::Vec;

    /// An operation's answer has the codes that are its own, and every other code stops the program.
    #[test]
    fn foreign_codes_stop() {
        fn own(codes: &[u32], read: fn(u32)) -> Vec<u32> {
            (0..30).filter(|code| catch_unwind(|| read(*code)).is_ok() != codes.contains(code)).collect()
        }
        let said = take_hook();
        set_hook(Box::new(|_| {})); // they would say hundreds of lines
        let wrong = [
            own(&[0, 1, 2, 3, 4, 13, 14, 15], |code| {
                let place = if matches!(code, 3 | 13) { 9 } else { 0 };
                assert_eq!(Refused::check(code, 9).map_or_else(|refused| (refused.code(), refused.number()), |()| (0, 0)), (code, place));
            }),
            own(&[0, 6], |code| assert_eq!(Searched::read(code, 9) == Searched::KeyAbsent, code == 6)),
            own(&[0, 5, 7], |code| assert_eq!(matches!(Inserted::read(1, code, 9), Inserted::NewlyMarked(_)), code == 0)),
            own(&[0, 6], |code| assert_eq!(Deleted::read(code, 9) == Deleted::KeyAbsent, code == 6)),
            own(&[0, 8, 10, 11], |code| assert_eq!(Stepped::read(code) == Stepped::Taken, code == 0)),
            own(&[0, 12], |code| assert_eq!(Settled::read(code, 9) == Settled::RedBlack { steps: 9 }, code == 0)),
            own(&[0, 6], |code| assert_eq!(Found::read(code, 9) == Found::Key(9), code == 0)),
            own(&[0], |code| assert_eq!(how_many(code, 9), 9)),
            own(&[0, 1, 2, 3, 4, 7, 13, 14, 15, 16], |code| {
                let answer = MaySend::read(Text { notice: 1, resident: 0 }, code, 3);
                assert_eq!(matches!(answer, Ok(MaySend::Yes(permit)) if permit.attempt() == 3), code == 0);
            }),
        ];
        set_hook(said);
        assert!(
            wrong.iter().all(Vec::is_empty),
            "codes of a call, search, insert, delete, step, settle, at_or_above, count and delete_span, may_send that are read wrongly: {wrong:?}"
        );
    }
}
