//! The text goes out first, and then its mark is saved. The process stops in between.
//! compiles, and sends above the limit
#![deny(warnings)]
use chromatic::{MaySend, Permit, Pool, Text};

fn main() {
    let mut stored = vec![1, 0]; // an empty set of 1 slot
    let mut texts = 0;
    let mut send = |_permit: Permit| texts += 1;
    for stops_in_between in [true, true, false, false] {
        let mut pool = Pool::load(vec![0; Pool::words_for(1)], &stored).unwrap();
        if let MaySend::Yes(permit) = pool.may_send(Text { notice: 7, resident: 1 }, 1).unwrap() {
            send(permit);
        }
        if !stops_in_between {
            stored = pool.save(&mut [0; Pool::saved_bytes_for(1)]).unwrap().to_vec();
        }
    }
    assert_eq!(texts, 3); // of a limit of 1
}
