//! Two services that load the same bytes.
//! compiles, and both send
#![deny(warnings)]
use chromatic::{Inserted, Mark, Pool};

fn main() {
    let stored = [1, 0]; // an empty set of 1 slot
    let mut texts = 0;
    let mut send = |_mark: Mark| texts += 1;
    for _service in 0..2 {
        let mut pool = Pool::load(vec![0; Pool::words_for(1)], &stored).unwrap();
        if let Inserted::NewlyMarked(mark) = pool.insert(7).unwrap() {
            send(mark);
        }
    }
    assert_eq!(texts, 2);
}
