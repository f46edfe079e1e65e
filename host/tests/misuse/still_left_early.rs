//! A loop over the answers that is left early, by `break` or `?`: the rest is marked and has no text.
//! compiles, and loses texts
#![deny(warnings)]
use chromatic::{Answer, Batch, Inserted, Mark, Pool, Searched, Words};

fn tell(pool: &mut Pool<impl Words>, keys: [u32; 3], mut send: impl FnMut(Mark) -> Result<(), ()>) -> Result<(), ()> {
    let mut batch = Batch::new();
    keys.into_iter().for_each(|key| batch.push_insert(key).unwrap());
    for answer in pool.run(&batch).unwrap() {
        if let Answer::Insert { answer: Inserted::NewlyMarked(mark), .. } = answer {
            if mark.key() == 1 {
                break;
            }
            send(mark)?;
        }
    }
    Ok(())
}

fn main() {
    let mut pool = Pool::prepare(vec![0; Pool::words_for(127)]).unwrap();
    let mut texts = 0;
    let mut send = |mark: Mark| {
        texts += 1;
        if mark.key() == 5 { Err(()) } else { Ok(()) }
    };
    assert_eq!(tell(&mut pool, [1, 2, 3], &mut send), Ok(()));
    assert_eq!(tell(&mut pool, [4, 5, 6], &mut send), Err(()));
    assert_eq!(texts, 2);
    for key in 1..=6 {
        assert!(matches!(pool.search(key), Ok(Searched::Marked { .. })));
    }
}
