//! An insert whose answer nobody reads.
//! error: that must be used
#![deny(warnings)]
use chromatic::{Inserted, Pool, Refused, Words};

pub fn tell(pool: &mut Pool<impl Words>, key: u32) -> Result<Inserted, Refused> {
    pool.insert(key)?; // FAULT
    pool.insert(key)
}
