//! A permit is not cloned.
//! error: E0599
#![deny(warnings)]
use chromatic::Permit;

pub fn two(permit: Permit) -> Vec<Permit> {
    vec![
        permit.clone(), // FAULT
        permit,
    ]
}
