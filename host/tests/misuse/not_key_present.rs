//! Whatever is not "key present" is no leave to send: it has no mark.
//! error: E0308
#![deny(warnings)]
use chromatic::{Inserted, Mark, Pool, Refused, Words};

fn send(mark: Mark) {
    println!("text for key {}", mark.key());
}

pub fn tell(pool: &mut Pool<impl Words>, key: u32) -> Result<(), Refused> {
    let answer = pool.insert(key)?;
    if !matches!(answer, Inserted::KeyPresent) {
        send(key); // FAULT
        // MENDED if let Inserted::NewlyMarked(mark) = answer { send(mark) }
    }
    Ok(())
}
