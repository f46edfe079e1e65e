//! A type of one's own that dereferences to other words each time.
//! compiles, and sends twice
#![deny(warnings)]
use chromatic::{Inserted, Mark, Pool};
use std::ops::{Deref, DerefMut};

struct Two {
    words: [Vec<u32>; 2],
    turn: usize,
}

impl Deref for Two {
    type Target = [u32];

    fn deref(&self) -> &[u32] {
        &self.words[0]
    }
}

impl DerefMut for Two {
    fn deref_mut(&mut self) -> &mut [u32] {
        self.turn += 1;
        &mut self.words[self.turn % 2]
    }
}

fn main() {
    let empty = Pool::prepare(vec![0; Pool::words_for(1)]).unwrap().into_words();
    let mut pool = Pool::resume(Two { words: [empty.clone(), empty], turn: 0 }).unwrap();
    let mut texts = 0;
    let mut send = |_mark: Mark| texts += 1;
    for _poll in 0..3 {
        if let Inserted::NewlyMarked(mark) = pool.insert(7).unwrap() {
            send(mark);
        }
    }
    assert_eq!(texts, 2);
}
