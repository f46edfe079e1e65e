//! Deleting a span of marks whose notice still stands, to make room: their texts go again.
//! compiles, and sends from a full pool
#![deny(warnings)]
use chromatic::{Inserted, Mark, Pool};

include!("full.inc");

fn main() {
    let mut words = [0; Pool::words_for(3)];
    let mut pool = full(&mut words[..]);
    let mut texts = 0;
    let mut send = |_mark: Mark| texts += 1;
    for key in [0, 1, 2, 3, 0, 1] {
        match pool.insert(key).unwrap() {
            Inserted::NewlyMarked(mark) => send(mark),
            Inserted::KeyPresent => {}
            Inserted::NoRoom => {
                assert_eq!(pool.delete_span(0..=9), Ok(2));
                if let Inserted::NewlyMarked(mark) = pool.insert(key).unwrap() {
                    send(mark);
                }
            }
        }
    }
    assert_eq!(texts, 4); // 0 and 1 had their texts before
}
