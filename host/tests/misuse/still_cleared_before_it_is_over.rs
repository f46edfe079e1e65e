//! The marks of a notice that is over are cleared and saved, and only then is it stored that it is over. The process stops in between.
//! compiles, and sends above the limit
#![deny(warnings)]
use chromatic::{MaySend, Permit, Pool, Text};

/// What is on the disk.
struct Stored {
    marks: Vec<u8>,
    stands: bool,
}

fn main() {
    let mut disk = Stored { marks: vec![1, 0], stands: true }; // an empty set of 1 slot
    let text = Text { notice: 7, resident: 1 };
    let mut texts = 0;
    let mut send = |_permit: Permit| texts += 1;
    for stops_in_between in [true, false, false] {
        let mut pool = Pool::load(vec![0; Pool::words_for(1)], &disk.marks).unwrap();
        if disk.stands {
            if let MaySend::Yes(permit) = pool.may_send(text, 1).unwrap() {
                send(permit);
            }
        }
        // now it is over
        assert!(pool.clear_notice(text.notice).is_ok());
        disk.marks = pool.save(&mut [0; Pool::saved_bytes_for(1)]).unwrap().to_vec();
        if stops_in_between {
            continue;
        }
        disk.stands = false;
    }
    assert_eq!(texts, 2); // of a limit of 1
}
