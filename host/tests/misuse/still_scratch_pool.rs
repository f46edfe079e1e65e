//! A mark from a scratch pool.
//! compiles, and sends from a full pool
#![deny(warnings)]
use chromatic::{Inserted, Mark, Pool};

include!("full.inc");

fn main() {
    let mut words = [0; Pool::words_for(3)];
    let mut pool = full(&mut words[..]);
    let mut texts = 0;
    let mut send = |_mark: Mark| texts += 1;
    for _poll in 0..2 {
        match pool.insert(77).unwrap() {
            Inserted::NewlyMarked(mark) => send(mark),
            Inserted::KeyPresent => {}
            Inserted::NoRoom => {
                if let Ok(Inserted::NewlyMarked(mark)) = Pool::prepare(vec![0; Pool::words_for(1)]).unwrap().insert(77) {
                    send(mark);
                }
            }
        }
    }
    assert_eq!(texts, 2);
}
