//! A report is the library's: it can grow.
//! error: E0639
#![deny(warnings)]
use chromatic::Report;

pub fn reports() -> Vec<Report> {
    vec![
        Report { nodes: 0, level: 0, excess_weight: 0, conflicts: 0, over_distance: 0, red_distance: 0, bound: 0 }, // FAULT
    ]
}
