//! The same notice under a new number, here one more at each start: every number has a count of its own.
//! compiles, and sends above the limit
#![deny(warnings)]
use chromatic::{MaySend, Permit, Pool, Text};

fn main() {
    let mut stored = vec![7, 0]; // an empty set of 7 slots
    let mut texts = 0;
    let mut send = |_permit: Permit| texts += 1;
    for start in 1..=4 {
        let mut pool = Pool::load(vec![0; Pool::words_for(7)], &stored).unwrap();
        // each time the water is off in the same street
        if let MaySend::Yes(permit) = pool.may_send(Text { notice: start, resident: 1 }, 1).unwrap() {
            stored = pool.save(&mut [0; Pool::saved_bytes_for(7)]).unwrap().to_vec();
            send(permit);
        }
    }
    assert_eq!(texts, 4); // of a limit of 1
}
