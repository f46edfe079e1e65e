//! A mark is withdrawn, since its text did not go, and the set is not saved again.
//! compiles, and the text never goes
#![deny(warnings)]
use chromatic::{Deleted, Inserted, Pool};

fn main() {
    let mut pool = Pool::prepare(vec![0; Pool::words_for(1)]).unwrap();
    let mut out = [0; Pool::saved_bytes_for(1)];
    if let Inserted::NewlyMarked(mark) = pool.insert(7).unwrap() {
        let stored = pool.save(&mut out).unwrap();
        // the gateway is down
        assert!(matches!(pool.withdraw(mark), Ok(Deleted::Cleared { .. })));
        let mut restarted = Pool::load(vec![0; Pool::words_for(1)], stored).unwrap();
        assert!(matches!(restarted.insert(7), Ok(Inserted::KeyPresent)));
    }
}
