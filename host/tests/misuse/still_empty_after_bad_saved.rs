//! Preparing an empty set where a load is refused.
//! compiles, and sends every text again
#![deny(warnings)]
use chromatic::{Inserted, Mark, Pool, Refused};

fn restarted(slots: usize, saved: &[u8]) -> Result<Pool<Vec<u32>>, Refused> {
    let words = || vec![0; Pool::words_for(slots)];
    Pool::load(words(), saved).or_else(|_refused| Pool::prepare(words()))
}

fn main() {
    let mut pool = Pool::prepare(vec![0; Pool::words_for(3)]).unwrap();
    let mut texts = 0;
    let mut send = |_mark: Mark| texts += 1;
    for key in [7, 8] {
        if let Inserted::NewlyMarked(mark) = pool.insert(key).unwrap() {
            send(mark);
        }
    }
    let mut out = [0; Pool::saved_bytes_for(3)];
    let stored = pool.save(&mut out).unwrap();
    let cut = &stored[..stored.len() - 1];
    // A file that was cut short is refused with code 13, one of another number of slots with code 14.
    assert_eq!(Pool::load(vec![0; Pool::words_for(3)], cut).err(), Some(Refused::BadSaved { wrong_at: 7 }));
    assert_eq!(Pool::load(vec![0; Pool::words_for(5)], stored).err(), Some(Refused::NoFit));
    for (slots, saved) in [(3, cut), (5, stored)] {
        let mut pool = restarted(slots, saved).unwrap();
        for key in [7, 8] {
            if let Inserted::NewlyMarked(mark) = pool.insert(key).unwrap() {
                send(mark);
            }
        }
    }
    assert_eq!(texts, 6); // three each
}
