//! Every other answer that nobody reads.
//! error: that must be used
#![deny(warnings)]
use chromatic::{Answer, Inserted, Kind, Mark, Pool, Refused, Words};

pub const KIND: Kind = Kind::One;

pub fn answer() -> Answer {
    panic!("an answer")
}

pub fn mark(answer: Inserted) -> Mark {
    match answer {
        Inserted::NewlyMarked(mark) => mark,
        Inserted::KeyPresent | Inserted::NoRoom => panic!("no mark"),
    }
}

pub fn tell(pool: &mut Pool<impl Words>) -> Result<u32, Refused> {
    pool.search(7)?; // FAULT
    pool.delete(7)?; // FAULT
    pool.step(1, KIND)?; // FAULT
    pool.settle(9)?; // FAULT
    pool.at_or_above(7)?; // FAULT
    pool.count(7..=9); // FAULT
    pool.delete_span(7..=9); // FAULT
    answer(); // FAULT
    mark(pool.insert(7)?); // FAULT
    pool.audit().expect_err("a damaged pool"); // FAULT
    pool.audit(); // FAULT
    let report = pool.report()?;
    report.keys(); // FAULT
    report.red_black(); // FAULT
    report.settle_budget(); // FAULT
    Pool::words_for(1); // FAULT
    Ok(report.settle_budget() + mark(pool.insert(7)?).slot())
}
