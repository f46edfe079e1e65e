//! Loading into lent words while their pool is in use.
//! error: E0499
#![deny(warnings)]
use chromatic::{Inserted, Pool, Refused};

pub fn again(words: &mut [u32], saved: &[u8], key: u32) -> Result<Inserted, Refused> {
    let mut pool = Pool::load(&mut *words, saved)?;
    let _second = Pool::load(&mut *words, saved)?; // FAULT
    pool.insert(key)
}
