//! Only the mark is looked at: a full pool looks like "marked before", and nobody calls the desk.
//! compiles, and loses texts
#![deny(warnings)]
use chromatic::{Inserted, Mark, Pool};

fn main() {
    let mut pool = Pool::prepare(vec![0; Pool::words_for(1)]).unwrap();
    let mut texts = 0;
    let mut send = |_mark: Mark| texts += 1;
    for key in [1, 2] {
        if let Inserted::NewlyMarked(mark) = pool.insert(key).unwrap() {
            send(mark);
        }
    }
    assert_eq!(texts, 1);
}
