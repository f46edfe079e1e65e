//! Notice and resident have their names: two bare numbers, of which either could be either, are not taken.
//! error: E0061
#![deny(warnings)]
use chromatic::{MaySend, Pool, Refused, Words};

pub fn ask(pool: &mut Pool<impl Words>, notice: u32, resident: u32) -> Result<MaySend, Refused> {
    pool.may_send(resident, notice, 3) // FAULT
    // MENDED pool.may_send(chromatic::Text { resident, notice }, 3)
}
