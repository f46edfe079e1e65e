//! The first fault of 5:04: "not equal to key present" is true of a full pool.
//! error: E0369
#![deny(warnings)]
use chromatic::{Inserted, Pool, Refused, Words};

fn send(key: u32) {
    println!("text for key {key}");
}

pub fn tell(pool: &mut Pool<impl Words>, key: u32) -> Result<(), Refused> {
    if pool.insert(key)? != Inserted::KeyPresent { // FAULT
    // MENDED if let Inserted::NewlyMarked(_) = pool.insert(key)? {
        send(key);
    }
    Ok(())
}
