//! Sending by answer words, on whatever is not code 5.
//! compiles, and sends from a full pool
#![deny(warnings)]
use chromatic::{Inserted, Pool};

include!("full.inc");

fn main() {
    let mut words = [0; Pool::words_for(3)];
    let mut pool = full(&mut words[..]);
    let mut texts = 0;
    for _poll in 0..2 {
        let mut answers = [0; 2];
        pool.run_bytes(&[2, 77], &mut answers).unwrap();
        if answers[0] != Inserted::KEY_PRESENT {
            texts += 1;
        }
    }
    assert_eq!(texts, 2);
}
