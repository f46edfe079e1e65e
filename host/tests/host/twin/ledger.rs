//! The send limit of document 02: "A product above the set decides whether a text may go."

use super::{read, Answer, Edge, Set};
use std::ops::RangeInclusive;

/// "A notice number from 1 to 65,535 and a resident number from 0 to 8,191 are given, with a limit from 1 to 7."
pub const NOTICES: RangeInclusive<u32> = 1..=65_535;
pub const RESIDENTS: RangeInclusive<u32> = 0..=8_191;
pub const LIMITS: RangeInclusive<u32> = 1..=7;

/// What is asked of the ledger.
#[derive(Clone, Copy, Debug, PartialEq)]
pub enum Call {
    MaySend { notice: u32, resident: u32, limit: u32 },
    Clear { notice: u32 },
}

impl Call {
    fn in_range(self) -> bool {
        match self {
            Call::MaySend { notice, resident, limit } => {
                NOTICES.contains(&notice) && RESIDENTS.contains(&resident) && LIMITS.contains(&limit)
            }
            Call::Clear { notice } => NOTICES.contains(&notice),
        }
    }
}

/// What a key is made of. Its attempt is 0 where it is no mark.
#[derive(Clone, Copy, Debug, PartialEq)]
pub struct Parts {
    pub notice: u32,
    pub resident: u32,
    pub attempt: u32,
}

impl Parts {
    pub fn of(key: u32) -> Parts {
        Parts { notice: key / 65_536, resident: key % 65_536 / 8, attempt: key % 8 }
    }

    /// "The key is notice times 65,536 plus resident times 8 plus the attempt, 1 to 7."
    pub fn key(self) -> u32 {
        self.notice * 65_536 + self.resident * 8 + self.attempt
    }
}

fn add_keys(e: &Edge, keys: &mut Vec<u32>) {
    match e.to.edges() {
        [] => keys.push(e.to.key),
        both => both.iter().for_each(|below| add_keys(below, keys)),
    }
}

impl Set {
    /// All keys, the smallest first.
    pub fn in_order(&self) -> Vec<u32> {
        let mut keys = vec![];
        self.tree.iter().for_each(|root| add_keys(root, &mut keys));
        keys
    }

    /// The keys that are marks of a notice, the smallest first.
    fn marks_of(&self, notice: u32) -> Vec<u32> {
        let is_its_mark = |&key: &u32| {
            let of = Parts::of(key);
            of.notice == notice && of.attempt > 0
        };
        self.in_order().into_iter().filter(is_its_mark).collect()
    }

    /// "It gives the lowest unmarked attempt, which is marked in the same call before the answer is yes."
    fn may_send(&mut self, notice: u32, resident: u32, limit: u32) -> Answer {
        let marks = self.marks_of(notice);
        let key = |attempt| Parts { notice, resident, attempt }.key();
        // "16 when all attempts are marked, then 7 for no room"
        let Some(lowest) = (1..=limit).find(|&attempt| !marks.contains(&key(attempt))) else {
            return (16, 0);
        };
        match self.insert(key(lowest)) {
            (0, _) => (0, lowest),
            refused => refused,
        }
    }

    /// "Clearing a notice deletes its marks (attempts 1 to 7), smallest first"
    fn clear(&mut self, notice: u32) -> Answer {
        let marks = self.marks_of(notice);
        marks.iter().for_each(|&mark| assert_eq!(self.delete(mark).0, 0));
        (0, marks.len() as u32)
    }

    /// The call on a set that is there: no 1 and no 2.
    pub fn call(&mut self, call: Call) -> Answer {
        match call {
            _ if !call.in_range() => (15, 0),
            Call::MaySend { notice, resident, limit } => self.may_send(notice, resident, limit),
            Call::Clear { notice } => self.clear(notice),
        }
    }
}

/// The call on words.
pub fn call(words: &mut [u32], call: Call) -> Answer {
    // "15 for an argument outside its range, before 1 and 2"
    if !call.in_range() {
        return (15, 0);
    }
    match read(words) {
        Err(code) => (code, 0),
        Ok(mut set) => {
            let answer = set.call(call);
            words.copy_from_slice(&set.words());
            answer
        }
    }
}
