//! Two senders with two limits for one notice: the larger one counts.
//! compiles, and sends above the smaller limit
#![deny(warnings)]
use chromatic::{MaySend, Permit, Pool, Text};

fn main() {
    let mut pool = Pool::prepare(vec![0; Pool::words_for(15)]).unwrap();
    let mut texts = 0;
    let mut send = |_permit: Permit| texts += 1;
    for limit in [1, 3, 1, 3, 1, 3] {
        if let MaySend::Yes(permit) = pool.may_send(Text { notice: 7, resident: 1 }, limit).unwrap() {
            send(permit);
        }
    }
    assert_eq!(texts, 3);
}
