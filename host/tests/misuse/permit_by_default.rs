//! Nor is there one by default.
//! error: E0599
#![deny(warnings)]
use chromatic::Permit;

pub fn permits() -> Vec<Permit> {
    vec![
        Permit::default(), // FAULT
    ]
}
