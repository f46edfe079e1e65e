//! A search that says absent is no leave to send.
//! error: E0308
#![deny(warnings)]
use chromatic::{Inserted, Mark, Pool, Refused, Searched, Words};

fn send(mark: Mark) {
    println!("text for key {}", mark.key());
}

pub fn tell(pool: &mut Pool<impl Words>, key: u32) -> Result<(), Refused> {
    if pool.search(key)? == Searched::KeyAbsent {
        send(key); // FAULT
        match pool.insert(key)? {
            Inserted::NewlyMarked(mark) => send(mark),
            Inserted::KeyPresent | Inserted::NoRoom => {}
        }
    }
    Ok(())
}
