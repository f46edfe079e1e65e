//! One permit sends one text.
//! error: E0382
#![deny(warnings)]
use chromatic::{MaySend, Permit};

fn send(permit: Permit) {
    println!("notice {} to resident {}", permit.notice(), permit.resident());
}

pub fn tell(answer: MaySend) {
    if let MaySend::Yes(permit) = answer {
        send(permit);
        send(permit); // FAULT
    }
}
