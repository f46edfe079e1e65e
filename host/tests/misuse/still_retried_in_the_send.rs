//! A send that uses its permit up, and tries again inside: the type does not see how often it calls the gateway.
//! compiles, and sends above the limit
#![deny(warnings)]
use chromatic::{MaySend, Permit, Pool, Text};

fn main() {
    let mut pool = Pool::prepare(vec![0; Pool::words_for(1)]).unwrap();
    let mut texts = 0;
    // every text goes out, and the gateway's answer is in time for the fourth alone
    let mut post = |_resident: u32| {
        texts += 1;
        (texts == 4).then_some(()).ok_or("timed out")
    };
    let mut send = |permit: Permit| while post(permit.resident()).is_err() {};
    if let MaySend::Yes(permit) = pool.may_send(Text { notice: 7, resident: 1 }, 1).unwrap() {
        send(permit);
    }
    assert_eq!(texts, 4); // of a limit of 1
}
