//! A permit has no withdrawal: after a failed send the next attempt is asked for.
//! error: E0308
#![deny(warnings)]
use chromatic::{MaySend, Permit, Pool, Refused, Text, Words};

pub fn failed(pool: &mut Pool<impl Words>, permit: Permit) -> Result<MaySend, Refused> {
    let text = Text { notice: permit.notice(), resident: permit.resident() };
    let _ = pool.withdraw(permit)?; // FAULT
    pool.may_send(text, 3)
}
