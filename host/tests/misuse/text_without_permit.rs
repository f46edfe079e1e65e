//! Neither a text that is not all used, nor its key, nor a mark is a leave to send.
//! error: E0308
#![deny(warnings)]
use chromatic::{Mark, MaySend, Permit, Pool, Refused, Text, Words};

fn send(permit: Permit) {
    println!("notice {} to resident {}", permit.notice(), permit.resident());
}

pub fn tell(pool: &mut Pool<impl Words>, text: Text, mark: Mark) -> Result<(), Refused> {
    let key = mark.key();
    let answer = pool.may_send(text, 3)?;
    if !matches!(answer, MaySend::AllUsed) {
        send(text); // FAULT
        send(key); // FAULT
        send(mark); // FAULT
        // MENDED println!("{key}");
        // MENDED if let MaySend::Yes(permit) = answer { send(permit) }
    }
    Ok(())
}
