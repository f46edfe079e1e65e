//! "Who was told about notice 4,411?" is a span of keys: a mark's key is notice · 65,536 + resident · 8 + attempt, so that a notice's marks
//! lie side by side, and in them each resident's.
//!
//! - **From mark to mark** by the smallest key at or above, asked for from the one after the last: no key that is not there is asked for. The
//!   last mark of all, notice 65,535, resident 8,191, attempt 7, is the last 32-bit number, and has no number after it.
//! - **How many** by a count; for many notices in one batch, which is one call and one audit.
//! - **What is over** goes by one span, however many notices it is.

use chromatic::{Answer, Batch, Found, MaySend, Permit, Pool, Refused, Text, Words};
use std::error::Error;
use std::ops::RangeInclusive;

/// Texts about a notice that a resident may get.
const LIMIT: u32 = 7;

/// The keys of all residents' attempts.
fn marks_of(notice: u32) -> RangeInclusive<u32> {
    let first = notice << 16;
    first..=first | 0xFFFF
}

fn resident_of(key: u32) -> u32 {
    key >> 3 & 0x1FFF
}

fn attempt_of(key: u32) -> u32 {
    key & 7
}

/// The keys of the set in a span, the smallest first.
fn keys_in(pool: &mut Pool<impl Words>, span: RangeInclusive<u32>) -> Result<Vec<u32>, Refused> {
    let mut keys = vec![];
    let mut next = Some(*span.start());
    while let Some(from) = next {
        match pool.at_or_above(from)? {
            Found::Key(key) if span.contains(&key) => {
                keys.push(key);
                next = key.checked_add(1); // not `key + 1`: after the last number there is none
            }
            _ => break,
        }
    }
    Ok(keys)
}

/// Prints who was told about a notice, and by which attempts.
fn print_told(pool: &mut Pool<impl Words>, notice: u32) -> Result<(), Refused> {
    println!("notice {notice}: {} texts", pool.count(marks_of(notice))?);
    let marks = keys_in(pool, marks_of(notice))?;
    for of_one in marks.chunk_by(|a, b| resident_of(*a) == resident_of(*b)) {
        let attempts: Vec<String> = of_one.iter().map(|&key| attempt_of(key).to_string()).collect();
        println!("  resident {}: attempts {}", resident_of(of_one[0]), attempts.join(", "));
    }
    Ok(())
}

/// Prints how many texts went about each of these notices: one batch for all.
fn print_counts(pool: &mut Pool<impl Words>, notices: &[u32]) -> Result<(), Box<dyn Error>> {
    let mut batch = Batch::new();
    for &notice in notices {
        batch.push_count(marks_of(notice))?;
    }
    for (notice, answer) in notices.iter().zip(pool.run(&batch)?) {
        match answer {
            Answer::Count { answer, .. } => println!("{notice:5} {answer:3}"),
            other => return Err(format!("not asked: {other:?}").into()),
        }
    }
    Ok(())
}

/// The one way to a text. It uses the permit up.
fn send(permit: Permit) {
    drop(permit);
}

fn main() -> Result<(), Box<dyn Error>> {
    let mut pool = Pool::prepare(vec![0; Pool::words_for(127)])?;
    // What a morning's polls sent: notice, resident, texts.
    for (notice, resident, texts) in [(4411, 12, 1), (4410, 8191, 1), (4411, 7, 3), (65_535, 8191, 7), (4412, 0, 1), (4411, 8191, 1)] {
        for _ in 0..texts {
            match pool.may_send(Text { notice, resident }, LIMIT)? {
                MaySend::Yes(permit) => send(permit), // with a restart in view: save and store first
                other => return Err(format!("notice {notice} to resident {resident}: {other:?}").into()),
            }
        }
    }
    for notice in [4411, 4413, 65_535] {
        print_told(&mut pool, notice)?;
    }
    let notices = [4410, 4411, 4412, 65_535];
    println!("texts by notice");
    print_counts(&mut pool, &notices)?;
    // The notices up to 4,411 are over, and that is stored: their marks go, the smallest first.
    println!("over up to 4411: {} marks deleted", pool.delete_span(0..=*marks_of(4411).end())?);
    print_counts(&mut pool, &notices)?;
    Ok(())
}
