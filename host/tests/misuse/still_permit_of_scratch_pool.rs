//! A permit from a scratch pool, where the set has no room.
//! compiles, and sends from a full pool
#![deny(warnings)]
use chromatic::{Inserted, MaySend, Permit, Pool, Text};

include!("full.inc");

fn main() {
    let mut words = [0; Pool::words_for(3)];
    let mut pool = full(&mut words[..]);
    let text = Text { notice: 7, resident: 1 };
    let mut texts = 0;
    let mut send = |_permit: Permit| texts += 1;
    for _poll in 0..4 {
        match pool.may_send(text, 1).unwrap() {
            MaySend::Yes(permit) => send(permit),
            MaySend::AllUsed => {}
            MaySend::NoRoom => {
                if let Ok(MaySend::Yes(permit)) = Pool::prepare(vec![0; Pool::words_for(1)]).unwrap().may_send(text, 1) {
                    send(permit);
                }
            }
        }
    }
    assert_eq!(texts, 4); // of a limit of 1
}
