//! A send that borrows its permit sends as often as it likes.
//! compiles, and sends above the limit
#![deny(warnings)]
use chromatic::{MaySend, Permit, Pool, Text};

fn main() {
    let mut pool = Pool::prepare(vec![0; Pool::words_for(1)]).unwrap();
    let mut texts = 0;
    let mut send = |_permit: &Permit| texts += 1;
    if let MaySend::Yes(permit) = pool.may_send(Text { notice: 7, resident: 1 }, 1).unwrap() {
        send(&permit);
        send(&permit);
    }
    assert_eq!(texts, 2); // of a limit of 1
}
