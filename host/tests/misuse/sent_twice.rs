//! One mark sends one text.
//! error: E0382
#![deny(warnings)]
use chromatic::{Inserted, Mark};

fn send(mark: Mark) {
    println!("text for key {}", mark.key());
}

pub fn tell(answer: Inserted) {
    if let Inserted::NewlyMarked(mark) = answer {
        send(mark);
        send(mark); // FAULT
    }
}
