//! Keys of another making in the same set, here 16 bits of notice and 16 of resident: they count as attempts, and are cleared as such.
//! compiles, loses one text and sends another twice
#![deny(warnings)]
use chromatic::{Inserted, Mark, MaySend, Pool, Text};

fn main() {
    let mut pool = Pool::prepare(vec![0; Pool::words_for(3)]).unwrap();
    let mut texts = 0;
    let mut send = |_mark: Mark| texts += 1;
    let key = 7 << 16 | 9; // resident 9 in the one making, resident 1 and attempt 1 in the other
    if let Inserted::NewlyMarked(mark) = pool.insert(key).unwrap() {
        send(mark);
    }
    assert!(matches!(pool.may_send(Text { notice: 7, resident: 1 }, 1), Ok(MaySend::AllUsed)));
    assert_eq!(pool.clear_notice(7), Ok(1));
    if let Inserted::NewlyMarked(mark) = pool.insert(key).unwrap() {
        send(mark);
    }
    assert_eq!(texts, 2);
}
