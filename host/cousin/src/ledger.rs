//! The send limit: may_send and clear_notice, the plain way.

use crate::batch::refused;
use crate::code;
use crate::pool::audit;
use crate::spans::at_or_above;
use crate::steps::Answer;
use crate::updates::{delete, insert, search};

const MOST_NOTICE: u32 = 65_535;
const MOST_RESIDENT: u32 = 8_191;
const MOST_ATTEMPTS: u32 = 7;

const KEYS_OF_NOTICE: u32 = 65_536;
const KEYS_OF_RESIDENT: u32 = 8;

/// "notice times 65,536 plus resident times 8 plus the attempt"
fn key(notice: u32, resident: u32, attempt: u32) -> u32 {
    notice * KEYS_OF_NOTICE + resident * KEYS_OF_RESIDENT + attempt
}

fn is_notice(notice: u32) -> bool {
    (1..=MOST_NOTICE).contains(&notice)
}

/// What both calls refuse, in the order 15, 1, 2.
fn refusal(pool: &[u32], in_range: bool) -> Option<u64> {
    let code = if in_range { audit(pool) } else { code::OUT_OF_RANGE };
    (code != code::GOOD).then(|| refused(code, 0))
}

/// Then 16, then 7.
pub fn may_send(pool: &mut [u32], notice: u32, resident: u32, limit: u32) -> u64 {
    let in_range = is_notice(notice) && resident <= MOST_RESIDENT && (1..=MOST_ATTEMPTS).contains(&limit);
    if let Some(refusal) = refusal(pool, in_range) {
        return refusal;
    }
    let unmarked = |&attempt: &u32| search(pool, key(notice, resident, attempt)).code == code::KEY_ABSENT;
    let Some(attempt) = (1..=limit).find(unmarked) else {
        return refused(code::ALL_USED, 0);
    };
    match insert(pool, key(notice, resident, attempt)) {
        Answer { code: code::GOOD, .. } => u64::from(attempt),
        Answer { code, .. } => refused(code, 0),
    }
}

/// Each mark is found by one descent, so that the 57,344 that a notice could have cost nothing where they are absent.
pub fn clear_notice(pool: &mut [u32], notice: u32) -> u64 {
    if let Some(refusal) = refusal(pool, is_notice(notice)) {
        return refusal;
    }
    let last = key(notice, MOST_RESIDENT, MOST_ATTEMPTS);
    let mut from = key(notice, 0, 1);
    let mut gone = 0;
    while let Some(found) = at_or_above(pool, from).filter(|&found| found <= last) {
        // A key with attempt 0 is no mark.
        if found % KEYS_OF_RESIDENT != 0 {
            delete(pool, found);
            gone += 1;
        }
        if found == last {
            break; // there may be no number after it
        }
        from = found + 1;
    }
    gone
}
