//! A send that takes a key, on whatever is not "key present".
//! compiles, and sends from a full pool
#![deny(warnings)]
use chromatic::{Inserted, Pool};

include!("full.inc");

fn main() {
    let mut words = [0; Pool::words_for(3)];
    let mut pool = full(&mut words[..]);
    let mut texts = 0;
    let mut send = |_key: u32| texts += 1;
    for _poll in 0..2 {
        if !matches!(pool.insert(77).unwrap(), Inserted::KeyPresent) {
            send(77);
        }
    }
    assert_eq!(texts, 2);
}
