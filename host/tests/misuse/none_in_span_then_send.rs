//! A span that counts 0, or a key with nothing at or above it, is no leave to send.
//! error: E0308
#![deny(warnings)]
use chromatic::{Found, Inserted, Mark, Pool, Refused, Words};

fn send(mark: Mark) {
    println!("text for key {}", mark.key());
}

pub fn tell(pool: &mut Pool<impl Words>, key: u32) -> Result<(), Refused> {
    if pool.count(key..=key)? == 0 {
        send(key); // FAULT
    }
    if pool.at_or_above(key)? == Found::NoneAbove {
        send(key); // FAULT
        match pool.insert(key)? {
            Inserted::NewlyMarked(mark) => send(mark),
            Inserted::KeyPresent | Inserted::NoRoom => {}
        }
    }
    Ok(())
}
