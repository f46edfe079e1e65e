//! A mark is not cloned.
//! error: E0599
#![deny(warnings)]
use chromatic::Mark;

pub fn two(mark: Mark) -> Vec<Mark> {
    vec![
        mark.clone(), // FAULT
        mark,
    ]
}
