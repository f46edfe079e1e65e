//! Marks that are dropped, one by one and as a list: their keys are marked and have no text.
//! compiles, and loses texts
#![deny(warnings)]
use chromatic::{Batch, Inserted, Pool};

fn main() {
    let mut pool = Pool::prepare(vec![0; Pool::words_for(9)]).unwrap();
    let mut batch = Batch::new();
    batch.push_insert(8).unwrap();
    let _ = pool.run(&batch).unwrap();
    let Ok(Inserted::NewlyMarked(_)) = pool.insert(7) else { panic!("no mark") };
    for key in [7, 8] {
        assert!(matches!(pool.insert(key), Ok(Inserted::KeyPresent)));
    }
}
