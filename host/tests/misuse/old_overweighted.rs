//! Code for 0.4.0: the report's third number was how many edges are overweighted. Now it is their excess weight, 8 for one of weight 9.
//! error: E0609
#![deny(warnings)]
use chromatic::Report;

pub fn line(report: &Report) -> String {
    // MENDED let to_work_off = report.excess_weight;
    let to_work_off = report.overweighted; // FAULT
    format!("{to_work_off} to be worked off")
}
