//! The text goes out first, and then the mark is saved. The process stops in between.
//! compiles, and sends twice
#![deny(warnings)]
use chromatic::{Inserted, Mark, Pool};

/// What is on the disk.
struct Stored {
    bytes: Vec<u8>,
}

fn main() {
    let mut disk = Stored { bytes: vec![1, 0] }; // an empty set of 1 slot
    let mut texts = 0;
    let mut send = |_mark: Mark| texts += 1;
    for stops_in_between in [true, false, false] {
        let mut pool = Pool::load(vec![0; Pool::words_for(1)], &disk.bytes).unwrap();
        if let Inserted::NewlyMarked(mark) = pool.insert(7).unwrap() {
            send(mark);
        }
        if stops_in_between {
            continue;
        }
        let mut out = [0; Pool::saved_bytes_for(1)];
        disk.bytes = pool.save(&mut out).unwrap().to_vec();
    }
    assert_eq!(texts, 2);
}
