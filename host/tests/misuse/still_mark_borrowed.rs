//! A send that borrows its mark sends as often as it likes.
//! compiles, and sends twice
#![deny(warnings)]
use chromatic::{Inserted, Mark, Pool};
use std::rc::Rc;

fn main() {
    let mut pool = Pool::prepare(vec![0; Pool::words_for(1)]).unwrap();
    let mut texts = 0;
    let mut send = |_mark: &Mark| texts += 1;
    if let Inserted::NewlyMarked(mark) = pool.insert(7).unwrap() {
        send(&mark);
        send(&mark);
        let shared = Rc::new(mark);
        [Rc::clone(&shared), shared].iter().for_each(|mark| send(mark));
    }
    assert_eq!(texts, 4);
}
