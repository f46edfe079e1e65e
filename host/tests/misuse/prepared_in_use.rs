//! The words of a pool in use cannot be prepared anew.
//! error: E0499
#![deny(warnings)]
use chromatic::{Inserted, Pool, Refused};

pub fn tell(words: &mut [u32], key: u32) -> Result<Inserted, Refused> {
    let mut pool = Pool::prepare(&mut *words)?;
    Pool::prepare(&mut *words)?; // FAULT
    pool.insert(key)
}
