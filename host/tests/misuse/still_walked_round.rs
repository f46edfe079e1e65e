//! Walking a span by the key found plus one, which wraps: after the last 32-bit key comes the first again.
//! compiles, and never ends
#![deny(warnings)]
use chromatic::{Found, Inserted, Pool};

fn main() {
    let mut pool = Pool::prepare(vec![0; Pool::words_for(3)]).unwrap();
    for key in [7, u32::MAX] {
        assert!(matches!(pool.insert(key), Ok(Inserted::NewlyMarked(_))));
    }
    let mut met = vec![];
    let mut next = 0;
    while let Found::Key(key) = pool.at_or_above(next).unwrap() {
        met.push(key);
        next = key.wrapping_add(1);
        if met.len() == 6 {
            break; // or it would go on
        }
    }
    assert_eq!(met, [7, u32::MAX, 7, u32::MAX, 7, u32::MAX]);
}
