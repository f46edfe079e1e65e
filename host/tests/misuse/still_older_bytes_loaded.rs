//! Bytes that were saved before the mark, and are loaded after its text went.
//! compiles, and sends twice
#![deny(warnings)]
use chromatic::{Inserted, Mark, Pool};

fn main() {
    let mut pool = Pool::prepare(vec![0; Pool::words_for(1)]).unwrap();
    let mut texts = 0;
    let mut send = |_mark: Mark| texts += 1;
    let mut out = [0; Pool::saved_bytes_for(1)];
    let stored = pool.save(&mut out).unwrap();
    if let Inserted::NewlyMarked(mark) = pool.insert(7).unwrap() {
        send(mark);
    }
    let mut restarted = Pool::load(vec![0; Pool::words_for(1)], stored).unwrap();
    if let Inserted::NewlyMarked(mark) = restarted.insert(7).unwrap() {
        send(mark);
    }
    assert_eq!(texts, 2);
}
