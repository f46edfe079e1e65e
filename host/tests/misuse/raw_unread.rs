//! The raw functions' answers, too.
//! error: that must be used
#![deny(warnings)]
use chromatic::raw;

pub fn tell(pool: &mut [u32], bytes: &[u8], answers: &mut [u32], out: &mut [u8]) -> u64 {
    raw::prepare(pool); // FAULT
    raw::audit(pool); // FAULT
    raw::report(pool, 7); // FAULT
    raw::batch(pool, bytes, answers); // FAULT
    raw::save(pool, out); // FAULT
    raw::load(pool, bytes); // FAULT
    raw::may_send(pool, 1, 0, 1); // FAULT
    raw::clear_notice(pool, 1); // FAULT
    raw::interface(); // FAULT
    raw::save(pool, out) + raw::batch(pool, bytes, answers)
}
