//! A list of answers that nobody reads.
//! error: that must be used
#![deny(warnings)]
use chromatic::{Answers, Batch, Pool, Refused, Words};

pub fn tell<'b>(pool: &mut Pool<impl Words>, batch: &'b Batch) -> Result<Answers<'b>, Refused> {
    pool.run(batch)?; // FAULT
    pool.run(batch)
}
