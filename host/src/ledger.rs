//! The send limit: no more than the allowed number of texts about a notice to a resident.

use crate::answer::{Inserted, Refused};
use core::ops::RangeInclusive;

/// Which text: about this notice, to this resident. The two have names, so that they are not exchanged unseen.
///
/// A text has attempts 1 to 7, each with a key of its own in the set: notice · 65,536 + resident · 8 + attempt. Written in
/// bits, from the top, a key is 16 of the notice, 13 of the resident and 3 of the attempt, so no two share one.
#[derive(Clone, Copy, Debug, PartialEq, Eq, PartialOrd, Ord, Hash)]
pub struct Text {
    /// The notice, of [`Text::NOTICES`].
    pub notice: u32,
    /// The resident, of [`Text::RESIDENTS`].
    pub resident: u32,
}

impl Text {
    /// The notices, 1 to 65,535.
    pub const NOTICES: RangeInclusive<u32> = 1..=65_535;
    /// The residents, 0 to 8,191.
    pub const RESIDENTS: RangeInclusive<u32> = 0..=8_191;
    /// The limits, 1 to 7: how many texts about one notice a resident may get.
    pub const LIMITS: RangeInclusive<u32> = 1..=7;
}

/// The leave to send one text, once. It cannot be made up, copied or cloned; a `fn send(permit: Permit)` uses it up.
///
/// **The type does not see inside the send.** One that tries again by itself, or whose gateway client repeats on a time-out,
/// sends many texts on one permit: call the gateway once for each.
///
/// Its attempt is marked in the set already, and stays so whatever becomes of the text: there is nothing to withdraw. If the
/// send fails, ask again: [`Pool::may_send`](crate::Pool::may_send) gives the next attempt, while the limit allows one.
/// Whoever drops a permit loses that attempt.
#[derive(Debug)]
#[must_use = "its attempt is marked: send the text with this permit, or the attempt is lost"]
pub struct Permit {
    text: Text,
    attempt: u32,
}

impl Permit {
    /// The notice that the text is about.
    pub fn notice(&self) -> u32 {
        self.text.notice
    }

    /// The resident who gets it.
    pub fn resident(&self) -> u32 {
        self.text.resident
    }

    /// Which of the resident's texts about the notice it is, from 1 to the limit: the lowest that was not marked.
    pub fn attempt(&self) -> u32 {
        self.attempt
    }

    /// The key in the set that is this attempt's mark: notice · 65,536 + resident · 8 + attempt. It is for screens; to delete
    /// it lets the attempt go again.
    pub fn key(&self) -> u32 {
        self.text.notice << 16 | self.text.resident << 3 | self.attempt
    }
}

/// Whether a text may go. Three cases with three meanings; only one of them has a [`Permit`], and the others change nothing.
/// They cannot be compared with `==` or `!=`: a `match` names all three.
#[derive(Debug)]
#[must_use = "whether a text may go is in here: match all three cases"]
pub enum MaySend {
    /// Code 0: one text may go, by this permit. Its attempt was marked in the same call, before the answer.
    Yes(Permit),
    /// Code 16: attempts 1 to the limit are all marked. No text, and asking again changes nothing: the resident had them, or a
    /// send failed that often.
    AllUsed,
    /// Code 7: an attempt is left, and no slots to mark it. No text may go: nothing would remember it. Asking again changes
    /// nothing until room is made: call the desk, and [clear](crate::Pool::clear_notice) the notices that are over.
    NoRoom,
}

impl MaySend {
    /// The code of [`MaySend::AllUsed`]. That of [`MaySend::NoRoom`] is [`Inserted::NO_ROOM`].
    pub const ALL_USED: u32 = 16;

    pub(crate) fn read(text: Text, code: u32, number: u32) -> Result<MaySend, Refused> {
        match code {
            MaySend::ALL_USED => Ok(MaySend::AllUsed),
            Inserted::NO_ROOM => Ok(MaySend::NoRoom),
            _ => Refused::check(code, number).map(|()| MaySend::Yes(Permit { text, attempt: number })),
        }
    }
}
