//! An answer that nobody reads: its attempt is used, and no text goes; or it was refused.
//! error: that must be used
#![deny(warnings)]
use chromatic::{MaySend, Permit, Pool, Refused, Text, Words};

pub fn permit(answer: MaySend) -> Permit {
    match answer {
        MaySend::Yes(permit) => permit,
        MaySend::AllUsed | MaySend::NoRoom => panic!("no permit"),
    }
}

pub fn tell(pool: &mut Pool<impl Words>, text: Text) -> Result<u32, Refused> {
    pool.may_send(text, 3)?; // FAULT
    permit(pool.may_send(text, 3)?); // FAULT
    pool.clear_notice(text.notice); // FAULT
    Ok(permit(pool.may_send(text, 3)?).attempt())
}
