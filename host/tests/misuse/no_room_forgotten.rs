//! A match names all three cases.
//! error: E0004
#![deny(warnings)]
use chromatic::{Inserted, Mark, Pool, Refused, Words};

fn send(mark: Mark) {
    println!("text for key {}", mark.key());
}

pub fn tell(pool: &mut Pool<impl Words>, key: u32) -> Result<(), Refused> {
    match pool.insert(key)? {
        Inserted::NewlyMarked(mark) => send(mark),
        Inserted::KeyPresent => {}
        // MENDED Inserted::NoRoom => println!("call the desk"),
    }
    Ok(())
}
