//! The second program behind functions that C can call, with the arguments of the library's
//! `chains_find`, `chains_check` and `chains_words`; and the day and pattern of Proposition 3.

use reference::cases;
use reference::library::{Ask, Library, Own};
use std::slice;

/// # Safety
/// The pointers are those of live arrays of these lengths; nothing else uses `work` and `out` meanwhile.
#[no_mangle]
pub unsafe extern "C" fn second_find(
    rec: *const u8,
    rec_len: usize,
    pat: *const u8,
    pat_len: usize,
    from: u16,
    to: u16,
    work: *mut u32,
    work_len: usize,
    out: *mut u16,
    out_len: usize,
) -> u64 {
    let ask = Ask {
        rec: slice::from_raw_parts(rec, rec_len),
        pat: slice::from_raw_parts(pat, pat_len),
        from,
        to,
        options: None,
    };
    let work = slice::from_raw_parts_mut(work, work_len);
    let out = slice::from_raw_parts_mut(out, out_len);
    Own.find(ask, work, out)
}

/// # Safety
/// The pointers are those of live arrays of these lengths; nothing else uses `work` meanwhile.
#[no_mangle]
pub unsafe extern "C" fn second_check(
    rec: *const u8,
    rec_len: usize,
    pat: *const u8,
    pat_len: usize,
    from: u16,
    to: u16,
    chain: *const u16,
    chain_len: usize,
    work: *mut u32,
    work_len: usize,
) -> u64 {
    let ask = Ask {
        rec: slice::from_raw_parts(rec, rec_len),
        pat: slice::from_raw_parts(pat, pat_len),
        from,
        to,
        options: None,
    };
    let chain = slice::from_raw_parts(chain, chain_len);
    Own.check(ask, chain, slice::from_raw_parts_mut(work, work_len))
}

/// # Safety
/// The pointers are those of live arrays of these lengths.
#[no_mangle]
pub unsafe extern "C" fn second_words(
    rec: *const u8,
    rec_len: usize,
    pat: *const u8,
    pat_len: usize,
) -> u64 {
    let rec = slice::from_raw_parts(rec, rec_len);
    Own.words(rec, slice::from_raw_parts(pat, pat_len))
}

/// Writes the day of Proposition 3 for n into a buffer that holds it, and gives its length.
///
/// # Safety
/// `buf` has room for 57,348 bytes.
#[no_mangle]
pub unsafe extern "C" fn second_proposition_3_day(n: u16, buf: *mut u8) -> usize {
    given(&cases::proposition_3_day(n), buf)
}

/// The same for its pattern, the keeps being nested this deep, all in one slot.
///
/// # Safety
/// `buf` has room for 57,348 bytes.
#[no_mangle]
pub unsafe extern "C" fn second_proposition_3_pattern(keeps: u8, buf: *mut u8) -> usize {
    given(&cases::proposition_3_pattern(keeps, true), buf)
}

unsafe fn given(bytes: &[u8], buf: *mut u8) -> usize {
    slice::from_raw_parts_mut(buf, bytes.len()).copy_from_slice(bytes);
    bytes.len()
}
