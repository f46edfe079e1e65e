//! The library's C names over the cousin.

use core::slice::{from_raw_parts, from_raw_parts_mut};

/// # Safety
/// `pointer` and `len` are a slice's, lent for the call; of no words, `pointer` may be anything.
unsafe fn lent<'a, T>(pointer: *const T, len: usize) -> &'a [T] {
    if len == 0 {
        &[]
    } else {
        unsafe { from_raw_parts(pointer, len) }
    }
}

/// # Safety
/// As `lent`, and no one else uses the slice during the call.
unsafe fn lent_mut<'a, T>(pointer: *mut T, len: usize) -> &'a mut [T] {
    if len == 0 {
        &mut []
    } else {
        unsafe { from_raw_parts_mut(pointer, len) }
    }
}

#[no_mangle]
pub extern "C" fn chromatic_interface_8() -> u32 {
    8
}

/// # Safety
/// As `lent_mut` of the pool.
#[no_mangle]
pub unsafe extern "C" fn chromatic_prepare(pool: *mut u32, pool_len: usize) -> u32 {
    crate::prepare(unsafe { lent_mut(pool, pool_len) })
}

/// # Safety
/// As `lent` of the pool.
#[no_mangle]
pub unsafe extern "C" fn chromatic_audit(pool: *const u32, pool_len: usize) -> u32 {
    crate::audit(unsafe { lent(pool, pool_len) })
}

/// # Safety
/// As `lent` of the pool.
#[no_mangle]
pub unsafe extern "C" fn chromatic_report(pool: *const u32, pool_len: usize, index: u32) -> u64 {
    crate::report(unsafe { lent(pool, pool_len) }, index)
}

/// # Safety
/// As `lent_mut` of the pool and the answers, `lent` of the batch; no two overlap.
#[no_mangle]
pub unsafe extern "C" fn chromatic_batch(
    pool: *mut u32,
    pool_len: usize,
    batch: *const u8,
    batch_len: usize,
    answers: *mut u32,
    answers_len: usize,
) -> u64 {
    unsafe { crate::batch(lent_mut(pool, pool_len), lent(batch, batch_len), lent_mut(answers, answers_len)) }
}

/// # Safety
/// As `lent` of the pool, `lent_mut` of the output; they do not overlap.
#[no_mangle]
pub unsafe extern "C" fn chromatic_save(pool: *const u32, pool_len: usize, out: *mut u8, out_len: usize) -> u64 {
    unsafe { crate::save(lent(pool, pool_len), lent_mut(out, out_len)) }
}

/// # Safety
/// As `lent_mut` of the pool, `lent` of the saved bytes; they do not overlap.
#[no_mangle]
pub unsafe extern "C" fn chromatic_load(pool: *mut u32, pool_len: usize, saved: *const u8, saved_len: usize) -> u64 {
    unsafe { crate::load(lent_mut(pool, pool_len), lent(saved, saved_len)) }
}

/// # Safety
/// As `lent_mut` of the pool.
#[no_mangle]
pub unsafe extern "C" fn chromatic_may_send(pool: *mut u32, pool_len: usize, notice: u32, resident: u32, limit: u32) -> u64 {
    crate::may_send(unsafe { lent_mut(pool, pool_len) }, notice, resident, limit)
}

/// # Safety
/// As `lent_mut` of the pool.
#[no_mangle]
pub unsafe extern "C" fn chromatic_clear_notice(pool: *mut u32, pool_len: usize, notice: u32) -> u64 {
    crate::clear_notice(unsafe { lent_mut(pool, pool_len) }, notice)
}
