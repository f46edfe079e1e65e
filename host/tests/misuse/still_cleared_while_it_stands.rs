//! Clearing a notice that still stands, to make room: its count begins afresh.
//! compiles, and sends above the limit
#![deny(warnings)]
use chromatic::{MaySend, Permit, Pool, Text};

fn main() {
    let mut pool = Pool::prepare(vec![0; Pool::words_for(3)]).unwrap(); // 2 marks
    let mut texts = 0;
    let mut send = |_permit: Permit| texts += 1;
    for _poll in 0..2 {
        for resident in 0..3 {
            let text = Text { notice: 7, resident };
            match pool.may_send(text, 1).unwrap() {
                MaySend::Yes(permit) => send(permit),
                MaySend::AllUsed => {}
                MaySend::NoRoom => {
                    assert_eq!(pool.clear_notice(text.notice), Ok(2));
                    if let MaySend::Yes(permit) = pool.may_send(text, 1).unwrap() {
                        send(permit);
                    }
                }
            }
        }
    }
    assert_eq!(texts, 6); // three residents, each with a limit of 1
}
