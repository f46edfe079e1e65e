//! The fast cousin: plain Rust on the same words, by the same algorithms, with no proofs.
//!
//! The timings hold the library against it. Built with the feature `exports` as a static archive, it has the
//! library's C names and can stand in for it (`host/test cousin`), and with a planted fault it shows
//! that the tests see that fault (host/faults).

mod batch;
#[cfg(feature = "exports")]
mod exports;
mod ledger;
mod pool;
mod report;
mod saved;
mod spans;
mod steps;
mod updates;

pub use batch::batch;
pub use ledger::{clear_notice, may_send};
pub use pool::{audit, prepare};
pub use report::report;
pub use saved::{load, save};
pub use steps::{first_allowed, settle_awake, Answer};

/// The codes of documents 01 and 02, each once.
pub mod code {
    pub const GOOD: u32 = 0;
    pub const WRONG_LENGTH: u32 = 1;
    pub const RULES_BROKEN: u32 = 2;
    pub const BAD_COMMAND: u32 = 3;
    pub const FEW_ANSWERS: u32 = 4;
    pub const KEY_PRESENT: u32 = 5;
    pub const KEY_ABSENT: u32 = 6;
    pub const NO_ROOM: u32 = 7;
    pub const NO_INNER_NODE: u32 = 8;
    pub const NO_KIND: u32 = 9;
    pub const CONDITION_FALSE: u32 = 10;
    pub const TOO_TALL: u32 = 11;
    pub const BUDGET_SPENT: u32 = 12;
    pub const NEVER_WRITTEN: u32 = 13;
    pub const OTHER_SIZE: u32 = 14;
    pub const OUT_OF_RANGE: u32 = 15;
    pub const ALL_USED: u32 = 16;
}
