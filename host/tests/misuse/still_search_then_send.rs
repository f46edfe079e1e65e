//! Search says absent, the text goes, and the mark has no room.
//! compiles, and sends from a full pool
#![deny(warnings)]
use chromatic::{Inserted, Pool, Searched};

include!("full.inc");

fn main() {
    let mut words = [0; Pool::words_for(3)];
    let mut pool = full(&mut words[..]);
    let mut texts = 0;
    let mut send = |_key: u32| texts += 1;
    for _poll in 0..2 {
        if pool.search(77).unwrap() == Searched::KeyAbsent {
            send(77);
            let _ = pool.insert(77);
        }
    }
    assert_eq!(texts, 2);
}
