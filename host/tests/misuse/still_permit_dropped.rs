//! Permits that are dropped: their attempts are used, and no text went.
//! compiles, and loses texts
#![deny(warnings)]
use chromatic::{MaySend, Pool, Text};

fn main() {
    let mut pool = Pool::prepare(vec![0; Pool::words_for(15)]).unwrap();
    let text = Text { notice: 7, resident: 1 };
    for _poll in 0..3 {
        let Ok(MaySend::Yes(_)) = pool.may_send(text, 3) else { panic!("no permit") };
    }
    assert!(matches!(pool.may_send(text, 3), Ok(MaySend::AllUsed)));
}
