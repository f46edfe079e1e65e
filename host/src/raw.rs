//! The library's functions as they are declared in C, and over each a safe function on slices.
//!
//! Every declaration and all unsafe code of this crate stand here. That the archive is of the same interface, the linker
//! says ([`interface`]); beyond that nothing checks a declaration against the library's source but the tests. The library
//! has no precondition: each function answers for every input. What it answers are bare numbers, in which "key present"
//! and "no room" differ by two: [`Pool`](crate::Pool) has types for them.

mod c {
    extern "C" {
        pub fn chromatic_interface_8() -> u32;
        pub fn chromatic_prepare(pool: *mut u32, pool_len: usize) -> u32;
        pub fn chromatic_audit(pool: *const u32, pool_len: usize) -> u32;
        pub fn chromatic_report(pool: *const u32, pool_len: usize, index: u32) -> u64;
        pub fn chromatic_batch(
            pool: *mut u32,
            pool_len: usize,
            batch: *const u8,
            batch_len: usize,
            answers: *mut u32,
            answers_len: usize,
        ) -> u64;
        pub fn chromatic_save(pool: *const u32, pool_len: usize, out: *mut u8, out_len: usize) -> u64;
        pub fn chromatic_load(pool: *mut u32, pool_len: usize, saved: *const u8, saved_len: usize) -> u64;
        pub fn chromatic_may_send(pool: *mut u32, pool_len: usize, notice: u32, resident: u32, limit: u32) -> u64;
        pub fn chromatic_clear_notice(pool: *mut u32, pool_len: usize, notice: u32) -> u64;
    }
}

/// The number of the interface that this crate is made for, 8; docs/INTERFACE.md says what each number has. The library's
/// function is named for it, and every function here calls it, so that an archive of another interface does not link.
#[must_use]
pub fn interface() -> u32 {
    // SAFETY: it takes nothing and changes nothing.
    unsafe { c::chromatic_interface_8() }
}

/// Makes a pool empty. Gives 0; or 1, changing nothing, if the length is not 4 + 4C with C from 1 to 16,383. (C slots hold
/// (C+1)/2 keys, 127 hold 64.)
#[must_use = "a refused pool is not prepared"]
pub fn prepare(pool: &mut [u32]) -> u32 {
    let _ = interface();
    // SAFETY: pointer and length are those of a live slice that is lent exclusively for the call.
    unsafe { c::chromatic_prepare(pool.as_mut_ptr(), pool.len()) }
}

/// Gives 0 if the pool keeps every audit rule, 1 for a wrong length, 2 for a broken rule.
///
/// Proved: `audit_exact`.
#[must_use = "whether the pool is sound is in here"]
pub fn audit(pool: &[u32]) -> u32 {
    let _ = interface();
    // SAFETY: pointer and length are those of a live slice that is lent for the call.
    unsafe { c::chromatic_audit(pool.as_ptr(), pool.len()) }
}

/// Number `index` of the report, 1 first: N, L, excess weight ([`Report::excess_weight`](crate::Report::excess_weight)), R, D,
/// Q, bound. Gives 0 for a refused pool and for any other index.
///
/// Proved: `excess_returned`, `excess_none_returned`.
#[must_use]
pub fn report(pool: &[u32], index: u32) -> u64 {
    let _ = interface();
    // SAFETY: pointer and length are those of a live slice that is lent for the call.
    unsafe { c::chromatic_report(pool.as_ptr(), pool.len(), index) }
}

/// Runs the commands in `batch` and fills two answer words for each; words of `answers` after those stay. Gives 0; or,
/// changing nothing, a refusal's code (1, 3, 4 or 2, tried in that order) times 4,294,967,296 plus its number: the byte at
/// which the batch goes wrong for 3 ([`Refused::BadCommand`](crate::Refused::BadCommand)), else 0.
///
/// Proved: `batch_decides`, `batch_returns_place`, `history`.
#[must_use = "a refused call ran nothing, and its answer words are as they were"]
pub fn batch(pool: &mut [u32], batch: &[u8], answers: &mut [u32]) -> u64 {
    let _ = interface();
    // SAFETY: pointers and lengths are those of live slices; the two that are written are lent exclusively, so no two
    // overlap.
    unsafe { c::chromatic_batch(pool.as_mut_ptr(), pool.len(), batch.as_ptr(), batch.len(), answers.as_mut_ptr(), answers.len()) }
}

/// Writes the set as bytes to the beginning of `out`; bytes after those stay. Gives how many they are, at most 7N + 4 for N
/// nodes; or, writing nothing, a refusal's code (1, 2 or 14, tried in that order) times 4,294,967,296.
///
/// Proved: `save_codes`, `save_few`, `save_refused`.
#[must_use = "how many bytes are the saved set is in here; a refused call saved nothing"]
pub fn save(pool: &[u32], out: &mut [u8]) -> u64 {
    let _ = interface();
    // SAFETY: pointers and lengths are those of live slices; the one that is written is lent exclusively, so they do not
    // overlap.
    unsafe { c::chromatic_save(pool.as_ptr(), pool.len(), out.as_mut_ptr(), out.len()) }
}

/// Makes the pool, whatever its words are, the set that was saved. Gives N, its nodes; or, changing nothing, a refusal's
/// code (1, 13 or 14, tried in that order) times 4,294,967,296 plus its number: the byte at which the saved bytes go wrong for
/// 13 ([`Refused::BadSaved`](crate::Refused::BadSaved)), else 0.
///
/// Proved: `load_after_save`, `load_codes`, `load_refused`, `load_returns_place`.
#[must_use = "a refused call loaded nothing, and the pool's words are as they were"]
pub fn load(pool: &mut [u32], saved: &[u8]) -> u64 {
    let _ = interface();
    // SAFETY: as above.
    unsafe { c::chromatic_load(pool.as_mut_ptr(), pool.len(), saved.as_ptr(), saved.len()) }
}

/// Marks the lowest attempt from 1 to `limit` that is not marked, whose key is notice · 65,536 + resident · 8 + attempt, and
/// gives it: one text may go. Or gives, changing nothing, a refusal's code (15, 1, 2, 16 or 7, tried in that order) times
/// 4,294,967,296, and no text may go. The notice is from 1 to 65,535, the resident from 0 to 8,191, the limit from 1 to 7.
///
/// Proved: `send_codes`, `yes_returned`, `full_returned`, `texts_in_calls`.
#[must_use = "whether a text may go is in here, and which attempt is marked for it"]
pub fn may_send(pool: &mut [u32], notice: u32, resident: u32, limit: u32) -> u64 {
    let _ = interface();
    // SAFETY: pointer and length are those of a live slice that is lent exclusively for the call.
    unsafe { c::chromatic_may_send(pool.as_mut_ptr(), pool.len(), notice, resident, limit) }
}

/// Deletes the notice's marks, attempts 1 to 7 of every resident, the smallest key first, and gives how many went; its count
/// of texts begins afresh. Or gives, changing nothing, a refusal's code (15, 1 or 2, tried in that order) times 4,294,967,296.
///
/// Proved: `clear_says`, `clear_codes`.
#[must_use = "how many marks went is in here; a refused call cleared nothing"]
pub fn clear_notice(pool: &mut [u32], notice: u32) -> u64 {
    let _ = interface();
    // SAFETY: as above.
    unsafe { c::chromatic_clear_notice(pool.as_mut_ptr(), pool.len(), notice) }
}
