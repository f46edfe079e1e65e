//! Asking again for somebody whose text went: a yes says that the limit allows one more, not that one is due.
//! compiles, and sends up to the limit
#![deny(warnings)]
use chromatic::{MaySend, Permit, Pool, Text};

fn main() {
    let mut pool = Pool::prepare(vec![0; Pool::words_for(15)]).unwrap();
    let mut texts = 0;
    let mut send = |_permit: Permit| texts += 1;
    for _poll in 0..9 {
        if let MaySend::Yes(permit) = pool.may_send(Text { notice: 7, resident: 1 }, 3).unwrap() {
            send(permit);
        }
    }
    assert_eq!(texts, 3);
}
