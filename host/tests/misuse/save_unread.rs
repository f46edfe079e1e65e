//! A save or a load whose answer nobody reads.
//! error: that must be used
#![deny(warnings)]
use chromatic::{Pool, Refused, Words};

pub fn store<'o>(pool: &Pool<impl Words>, out: &'o mut [u8]) -> Result<&'o [u8], Refused> {
    pool.save(out); // FAULT
    pool.most_saved_bytes(); // FAULT
    Pool::saved_bytes_for(127); // FAULT
    pool.save(out)
}

pub fn restart(words: &mut [u32], saved: &[u8]) -> Result<u64, Refused> {
    Pool::load(&mut *words, saved); // FAULT
    Pool::load(words, saved)?.keys()
}
