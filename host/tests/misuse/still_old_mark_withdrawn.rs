//! A mark that is kept, while its key is deleted and marked again: both marks send, and the old one, withdrawn, takes the later one's
//! key away, or that of another pool.
//! compiles, and sends again
#![deny(warnings)]
use chromatic::{Deleted, Inserted, Mark, Pool, Words};

fn mark(pool: &mut Pool<impl Words>, key: u32) -> Mark {
    match pool.insert(key).unwrap() {
        Inserted::NewlyMarked(mark) => mark,
        other => panic!("{other:?}"),
    }
}

fn main() {
    let mut pool = Pool::prepare(vec![0; Pool::words_for(3)]).unwrap();
    let mut texts = 0;
    let mut send = |_mark: Mark| texts += 1;
    let (first, kept) = (mark(&mut pool, 7), mark(&mut pool, 8));
    for key in [7, 8] {
        assert!(matches!(pool.delete(key), Ok(Deleted::Cleared { .. })));
    }
    let (again, later) = (mark(&mut pool, 7), mark(&mut pool, 8));
    [first, again, later].into_iter().for_each(&mut send);
    assert_eq!(pool.withdraw(kept), Ok(Deleted::Cleared { keys_left: 1 }));
    send(mark(&mut pool, 8));
    assert_eq!(texts, 4); // two for each key

    let mut other = Pool::prepare(vec![0; Pool::words_for(1)]).unwrap();
    let theirs = mark(&mut other, 7);
    assert_eq!(pool.withdraw(theirs), Ok(Deleted::Cleared { keys_left: 1 }));
}
