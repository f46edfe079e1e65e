//! A send that takes a text, on whatever is not "all used".
//! compiles, and sends from a full pool
#![deny(warnings)]
use chromatic::{Inserted, MaySend, Pool, Text};

include!("full.inc");

fn main() {
    let mut words = [0; Pool::words_for(3)];
    let mut pool = full(&mut words[..]);
    let text = Text { notice: 7, resident: 1 };
    let mut texts = 0;
    let mut send = |_text: Text| texts += 1;
    for _poll in 0..4 {
        if !matches!(pool.may_send(text, 1).unwrap(), MaySend::AllUsed) {
            send(text);
        }
    }
    assert_eq!(texts, 4); // of a limit of 1
}
