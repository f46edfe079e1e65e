//! A permit cannot be made up.
//! error: E0451
#![deny(warnings)]
use chromatic::{Permit, Text};

pub fn permits(text: Text) -> Vec<Permit> {
    println!("{text:?}");
    vec![
        Permit { text, attempt: 1 }, // FAULT
    ]
}
