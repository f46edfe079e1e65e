//! Tests of the library behind the crate `chromatic`. They know it by its functions only, and compare it with the
//! twin (twin/), which is document 01, with 02's requests so far, written again.
//!
//! Lines that begin with "seed", "compared" or "measured" are for host/test to show.

mod api;
mod causes;
mod damage;
mod double;
mod hurtful;
mod ledger;
mod level;
mod pair;
mod places;
mod pools;
mod random;
mod rng;
mod saved;
mod spans;
mod threads;
mod twin;
mod worked;
