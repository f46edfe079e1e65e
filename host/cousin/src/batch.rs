//! Numbers, commands, and the batch call.

use crate::code;
use crate::pool::{audit, slots};
use crate::spans::{at_or_above, count_span, delete_span};
use crate::steps::{settle, step, Answer};
use crate::updates::{delete, insert, search};

const MOST_COMMANDS: usize = 256;
const ANSWER_WORDS: usize = 2;
/// The last group that a number may have, counted from 0.
const FIFTH: usize = 4;

/// A number and the place after it.
pub struct Number {
    pub value: u32,
    pub next: usize,
}

/// "seven-bit groups, lowest first, top bit set when more follow. Only the shortest form, at most 4,294,967,295."
#[inline]
pub fn number(bytes: &[u8], from: usize) -> Option<Number> {
    let mut value = 0u64;
    let mut next = from;
    loop {
        let byte = *bytes.get(next)?;
        let group = next - from;
        value |= u64::from(byte & 0x7F) << (7 * group);
        next += 1;
        if value > u64::from(u32::MAX) {
            return None;
        }
        if byte < 0x80 {
            let shortest = byte != 0 || group == 0;
            return shortest.then_some(Number { value: value as u32, next });
        }
        if group == FIFTH {
            return None;
        }
    }
}

/// The byte at which a number that was not read goes wrong: its last, be that a fifth above 0F or a 0 that is not needed, and
/// where there is no last, the end of the input. Good bytes pay nothing for it: it is looked for after a refusal.
#[cold]
pub fn wrong_at(bytes: &[u8], from: usize) -> usize {
    let last = (from..bytes.len()).find(|&place| bytes[place] < 0x80 || place == from + FIFTH);
    last.unwrap_or(bytes.len())
}

struct Command {
    operation: u32,
    first: u32,
    second: u32,
    next: usize,
}

/// How many an operation has.
#[inline]
fn arguments(operation: u32) -> Option<usize> {
    match operation {
        1 | 2 | 3 | 5 | 6 => Some(1),
        4 | 7 | 8 => Some(2),
        _ => None,
    }
}

fn command(bytes: &[u8], from: usize) -> Option<Command> {
    let operation = number(bytes, from)?;
    let arguments = arguments(operation.value)?;
    let first = number(bytes, operation.next)?;
    let second = if arguments == 2 { number(bytes, first.next)? } else { Number { value: 0, next: first.next } };
    Some(Command { operation: operation.value, first: first.value, second: second.value, next: second.next })
}

/// The byte at which a command that was not read goes wrong.
#[cold]
fn command_wrong_at(bytes: &[u8], from: usize) -> usize {
    let Some(operation) = number(bytes, from) else {
        return wrong_at(bytes, from);
    };
    if arguments(operation.value).is_none() {
        return from; // "the byte where its number begins"
    }
    match number(bytes, operation.next) {
        None => wrong_at(bytes, operation.next),
        Some(first) => wrong_at(bytes, first.next),
    }
}

/// How many commands, or the byte at which they go wrong.
fn count(bytes: &[u8]) -> Result<usize, usize> {
    let mut commands = 0;
    let mut place = 0;
    while place < bytes.len() {
        if commands == MOST_COMMANDS {
            return Err(place);
        }
        let Some(read) = command(bytes, place) else {
            return Err(command_wrong_at(bytes, place));
        };
        place = read.next;
        commands += 1;
    }
    Ok(commands)
}

fn run(pool: &mut [u32], c: &Command) -> Answer {
    match c.operation {
        1 => search(pool, c.first),
        2 => insert(pool, c.first),
        3 => delete(pool, c.first),
        4 => step(pool, c.first, c.second),
        5 => settle(pool, c.first),
        6 => at_or_above(pool, c.first).map_or(Answer::refused(code::KEY_ABSENT), Answer::good),
        7 => Answer::good(count_span(pool, c.first, c.second)),
        _ => Answer::good(delete_span(pool, c.first, c.second)),
    }
}

/// A number past 32 bits is the greatest of them.
pub fn refused(code: u32, number: usize) -> u64 {
    u64::from(code) << 32 | u64::from(u32::try_from(number).unwrap_or(u32::MAX))
}

/// Codes 1 to 4 refuse the call, in the order 1, 3, 4, 2.
fn refusal(pool: &[u32], bytes: &[u8], answers: usize) -> Option<u64> {
    if slots(pool.len()).is_none() {
        return Some(refused(code::WRONG_LENGTH, 0));
    }
    match count(bytes) {
        Err(place) => Some(refused(code::BAD_COMMAND, place)),
        Ok(commands) if answers / ANSWER_WORDS < commands => Some(refused(code::FEW_ANSWERS, 0)),
        Ok(_) if audit(pool) != code::GOOD => Some(refused(code::RULES_BROKEN, 0)),
        Ok(_) => None,
    }
}

pub fn batch(pool: &mut [u32], bytes: &[u8], answers: &mut [u32]) -> u64 {
    if let Some(refusal) = refusal(pool, bytes, answers.len()) {
        return refusal;
    }
    let mut place = 0;
    for pair in answers.chunks_exact_mut(ANSWER_WORDS) {
        let Some(c) = command(bytes, place) else {
            break;
        };
        let answer = run(pool, &c);
        pair.copy_from_slice(&[answer.code, answer.number]);
        place = c.next;
    }
    0
}
