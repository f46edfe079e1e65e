//! "Not equal to all used" is true of a full set, and "not equal to no room" of one that has had all its texts.
//! error: E0369
#![deny(warnings)]
use chromatic::{MaySend, Pool, Refused, Text, Words};

fn send(text: Text) {
    println!("notice {} to resident {}", text.notice, text.resident);
}

pub fn tell(pool: &mut Pool<impl Words>, text: Text) -> Result<(), Refused> {
    if pool.may_send(text, 3)? != MaySend::AllUsed { // FAULT
    // MENDED if let MaySend::Yes(_) = pool.may_send(text, 3)? {
        send(text);
    }
    if pool.may_send(text, 3)? != MaySend::NoRoom { // FAULT
    // MENDED if let MaySend::Yes(_) = pool.may_send(text, 3)? {
        send(text);
    }
    Ok(())
}
