//! Nor is there one by default.
//! error: E0599
#![deny(warnings)]
use chromatic::Mark;

pub fn marks() -> Vec<Mark> {
    vec![
        Mark::default(), // FAULT
    ]
}
