//! Saving into the buffer of a save whose bytes are not stored yet.
//! error: E0499
#![deny(warnings)]
use chromatic::{Pool, Refused, Words};

pub fn both(first: &Pool<impl Words>, second: &Pool<impl Words>, out: &mut [u8], store: fn(&[u8])) -> Result<(), Refused> {
    let saved = first.save(out)?;
    store(second.save(out)?); // FAULT
    store(saved);
    // MENDED store(second.save(out)?);
    Ok(())
}
