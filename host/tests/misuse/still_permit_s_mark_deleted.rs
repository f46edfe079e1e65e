//! Deleting the mark of a permit whose text failed, as a withdrawal would: the attempt goes again. If the text did go, that is one too many.
//! compiles, and sends above the limit
#![deny(warnings)]
use chromatic::{Deleted, MaySend, Permit, Pool, Text};

fn main() {
    let mut pool = Pool::prepare(vec![0; Pool::words_for(1)]).unwrap();
    let mut texts = 0;
    // every text goes out, and the gateway's answer is lost
    let mut send = |_permit: Permit| {
        texts += 1;
        Err::<(), _>("no answer")
    };
    for _poll in 0..4 {
        if let MaySend::Yes(permit) = pool.may_send(Text { notice: 7, resident: 1 }, 1).unwrap() {
            let key = permit.key();
            if send(permit).is_err() {
                assert!(matches!(pool.delete(key), Ok(Deleted::Cleared { .. })));
            }
        }
    }
    assert_eq!(texts, 4); // of a limit of 1
}
