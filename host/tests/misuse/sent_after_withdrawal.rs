//! A mark that was withdrawn sends nothing.
//! error: E0382
#![deny(warnings)]
use chromatic::{Deleted, Mark, Pool, Refused, Words};

pub fn send(mark: Mark) {
    println!("text for key {}", mark.key());
}

pub fn failed(pool: &mut Pool<impl Words>, mark: Mark) -> Result<Deleted, Refused> {
    let taken_back = pool.withdraw(mark);
    send(mark); // FAULT
    taken_back
}
