//! A pool without slots has no length, and one of 16,384 slots has none either; nor have their saved sets.
//! error: E0080
#![deny(warnings)]
use chromatic::Pool;

pub static NONE: [u32; Pool::words_for(0)] = [0; Pool::words_for(0)]; // FAULT
pub static MANY: [u32; Pool::words_for(16_384)] = [0; Pool::words_for(16_384)]; // FAULT
pub static MOST: [u32; Pool::words_for(16_383)] = [0; Pool::words_for(16_383)];
pub static NOTHING: [u8; Pool::saved_bytes_for(0)] = [0; Pool::saved_bytes_for(0)]; // FAULT
pub static TOO_MUCH: [u8; Pool::saved_bytes_for(16_384)] = [0; Pool::saved_bytes_for(16_384)]; // FAULT
pub static ENOUGH: [u8; Pool::saved_bytes_for(16_383)] = [0; Pool::saved_bytes_for(16_383)];
