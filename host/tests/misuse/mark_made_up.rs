//! A mark cannot be made up.
//! error: E0451
#![deny(warnings)]
use chromatic::Mark;

pub fn marks(key: u32) -> Vec<Mark> {
    println!("{key}");
    vec![
        Mark { key, slot: 1 }, // FAULT
    ]
}
