//! A match names all three cases.
//! error: E0004
#![deny(warnings)]
use chromatic::{MaySend, Permit, Pool, Refused, Text, Words};

fn send(permit: Permit) {
    println!("notice {} to resident {}", permit.notice(), permit.resident());
}

pub fn without_no_room(pool: &mut Pool<impl Words>, text: Text) -> Result<(), Refused> {
    match pool.may_send(text, 3)? {
        MaySend::Yes(permit) => send(permit),
        MaySend::AllUsed => {}
        // MENDED MaySend::NoRoom => println!("call the desk"),
    }
    Ok(())
}

pub fn without_all_used(pool: &mut Pool<impl Words>, text: Text) -> Result<(), Refused> {
    match pool.may_send(text, 3)? {
        MaySend::Yes(permit) => send(permit),
        MaySend::NoRoom => println!("call the desk"),
        // MENDED MaySend::AllUsed => {}
    }
    Ok(())
}
