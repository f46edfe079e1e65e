//! The whole buffer is stored, and not the bytes that the save gave.
//! compiles, and after the restart no text goes
#![deny(warnings)]
use chromatic::{Pool, Refused};

fn main() {
    let pool = Pool::prepare(vec![0; Pool::words_for(3)]).unwrap();
    let mut out = [0; Pool::saved_bytes_for(3)];
    pool.save(&mut out).unwrap();
    let stored = out.to_vec();
    // 3 slots and 0 nodes read, and the other bytes are left over: the place is the count of all.
    assert_eq!(Pool::load(vec![0; Pool::words_for(3)], &stored).err(), Some(Refused::BadSaved { wrong_at: 25 }));
}
