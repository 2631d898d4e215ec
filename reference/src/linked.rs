//! The static library behind the eighteen functions. Nothing checks these declarations
//! against its source: the comparison does.

use crate::library::{Ask, Library, Listed};
use crate::record::Line;

#[link(name = "exports", kind = "static")]
extern "C" {
    fn chains_begin(buf: *mut u8, buf_len: usize, places: u16) -> u64;
    fn chains_add(
        buf: *mut u8,
        buf_len: usize,
        len: usize,
        from: u16,
        kind: u8,
        class_: u8,
        sail: u32,
        to: u16,
    ) -> u64;
    fn chains_add_timed(
        buf: *mut u8,
        buf_len: usize,
        len: usize,
        from: u16,
        kind: u8,
        class_: u8,
        sail: u32,
        to: u16,
        time: u32,
    ) -> u64;
    fn chains_read(
        rec: *const u8,
        rec_len: usize,
        line: u16,
        fields: *mut u32,
        fields_len: usize,
    ) -> u64;
    fn chains_pattern(pat: *const u8, pat_len: usize, counts: *mut u32, counts_len: usize) -> u64;
    fn chains_boats(rec: *const u8, rec_len: usize, counts: *mut u32, counts_len: usize) -> u64;
    fn chains_words(rec: *const u8, rec_len: usize, pat: *const u8, pat_len: usize) -> u64;
    fn chains_check(
        rec: *const u8,
        rec_len: usize,
        pat: *const u8,
        pat_len: usize,
        from: u16,
        to: u16,
        chain: *const u16,
        chain_len: usize,
        work: *mut u32,
        work_len: usize,
    ) -> u64;
    fn chains_check_with(
        rec: *const u8,
        rec_len: usize,
        pat: *const u8,
        pat_len: usize,
        from: u16,
        to: u16,
        chain: *const u16,
        chain_len: usize,
        options: *const u32,
        options_len: usize,
        work: *mut u32,
        work_len: usize,
    ) -> u64;
    fn chains_find(
        rec: *const u8,
        rec_len: usize,
        pat: *const u8,
        pat_len: usize,
        from: u16,
        to: u16,
        work: *mut u32,
        work_len: usize,
        out: *mut u16,
        out_len: usize,
    ) -> u64;
    fn chains_find_with(
        rec: *const u8,
        rec_len: usize,
        pat: *const u8,
        pat_len: usize,
        from: u16,
        to: u16,
        options: *const u32,
        options_len: usize,
        work: *mut u32,
        work_len: usize,
        out: *mut u16,
        out_len: usize,
    ) -> u64;
    fn chains_search_words(rec: *const u8, rec_len: usize, pat: *const u8, pat_len: usize) -> u64;
    fn chains_search_begin(
        rec: *const u8,
        rec_len: usize,
        pat: *const u8,
        pat_len: usize,
        from: u16,
        to: u16,
        work: *mut u32,
        work_len: usize,
    ) -> u64;
    fn chains_search_begin_with(
        rec: *const u8,
        rec_len: usize,
        pat: *const u8,
        pat_len: usize,
        from: u16,
        to: u16,
        options: *const u32,
        options_len: usize,
        work: *mut u32,
        work_len: usize,
    ) -> u64;
    fn chains_search_move(work: *mut u32, work_len: usize, amount: usize) -> u64;
    fn chains_search_finish(work: *mut u32, work_len: usize, out: *mut u16, out_len: usize) -> u64;
    fn chains_starts(
        rec: *const u8,
        rec_len: usize,
        pat: *const u8,
        pat_len: usize,
        starts: *const u16,
        starts_len: usize,
        to: u16,
        work: *mut u32,
        work_len: usize,
        lengths: *mut u32,
        lengths_len: usize,
    ) -> u64;
    fn chains_starts_with(
        rec: *const u8,
        rec_len: usize,
        pat: *const u8,
        pat_len: usize,
        starts: *const u16,
        starts_len: usize,
        to: u16,
        options: *const u32,
        options_len: usize,
        work: *mut u32,
        work_len: usize,
        lengths: *mut u32,
        lengths_len: usize,
    ) -> u64;
}

/// The linked library.
pub struct Linked;

// Each call gives pointers with the lengths of live slices, and mutable ones of slices
// that nothing else uses meanwhile.
impl Library for Linked {
    fn begin(&self, buf: &mut [u8], places: u16) -> u64 {
        unsafe { chains_begin(buf.as_mut_ptr(), buf.len(), places) }
    }

    fn add(&self, buf: &mut [u8], len: usize, line: Line) -> u64 {
        let (at, size) = (buf.as_mut_ptr(), buf.len());
        let Line {
            from,
            kind,
            class,
            sail,
            to,
            time,
        } = line;
        match time {
            None => unsafe { chains_add(at, size, len, from, kind, class, sail, to) },
            Some(time) => unsafe {
                chains_add_timed(at, size, len, from, kind, class, sail, to, time)
            },
        }
    }

    fn read(&self, rec: &[u8], number: u16, fields: &mut [u32]) -> u64 {
        unsafe {
            chains_read(
                rec.as_ptr(),
                rec.len(),
                number,
                fields.as_mut_ptr(),
                fields.len(),
            )
        }
    }

    fn pattern(&self, pat: &[u8], counts: &mut [u32]) -> u64 {
        unsafe { chains_pattern(pat.as_ptr(), pat.len(), counts.as_mut_ptr(), counts.len()) }
    }

    fn boats(&self, rec: &[u8], counts: &mut [u32]) -> u64 {
        unsafe { chains_boats(rec.as_ptr(), rec.len(), counts.as_mut_ptr(), counts.len()) }
    }

    fn words(&self, rec: &[u8], pat: &[u8]) -> u64 {
        unsafe { chains_words(rec.as_ptr(), rec.len(), pat.as_ptr(), pat.len()) }
    }

    fn check(&self, ask: Ask, chain: &[u16], work: &mut [u32]) -> u64 {
        let (rec, pat, at) = (ask.rec, ask.pat, work.as_mut_ptr());
        match ask.options {
            None => unsafe {
                chains_check(
                    rec.as_ptr(),
                    rec.len(),
                    pat.as_ptr(),
                    pat.len(),
                    ask.from,
                    ask.to,
                    chain.as_ptr(),
                    chain.len(),
                    at,
                    work.len(),
                )
            },
            Some(options) => unsafe {
                chains_check_with(
                    rec.as_ptr(),
                    rec.len(),
                    pat.as_ptr(),
                    pat.len(),
                    ask.from,
                    ask.to,
                    chain.as_ptr(),
                    chain.len(),
                    options.as_ptr(),
                    options.len(),
                    at,
                    work.len(),
                )
            },
        }
    }

    fn find(&self, ask: Ask, work: &mut [u32], out: &mut [u16]) -> u64 {
        let (rec, pat, at) = (ask.rec, ask.pat, work.as_mut_ptr());
        match ask.options {
            None => unsafe {
                chains_find(
                    rec.as_ptr(),
                    rec.len(),
                    pat.as_ptr(),
                    pat.len(),
                    ask.from,
                    ask.to,
                    at,
                    work.len(),
                    out.as_mut_ptr(),
                    out.len(),
                )
            },
            Some(options) => unsafe {
                chains_find_with(
                    rec.as_ptr(),
                    rec.len(),
                    pat.as_ptr(),
                    pat.len(),
                    ask.from,
                    ask.to,
                    options.as_ptr(),
                    options.len(),
                    at,
                    work.len(),
                    out.as_mut_ptr(),
                    out.len(),
                )
            },
        }
    }

    fn search_words(&self, rec: &[u8], pat: &[u8]) -> u64 {
        unsafe { chains_search_words(rec.as_ptr(), rec.len(), pat.as_ptr(), pat.len()) }
    }

    fn search_begin(&self, ask: Ask, work: &mut [u32]) -> u64 {
        let (rec, pat, at) = (ask.rec, ask.pat, work.as_mut_ptr());
        match ask.options {
            None => unsafe {
                chains_search_begin(
                    rec.as_ptr(),
                    rec.len(),
                    pat.as_ptr(),
                    pat.len(),
                    ask.from,
                    ask.to,
                    at,
                    work.len(),
                )
            },
            Some(options) => unsafe {
                chains_search_begin_with(
                    rec.as_ptr(),
                    rec.len(),
                    pat.as_ptr(),
                    pat.len(),
                    ask.from,
                    ask.to,
                    options.as_ptr(),
                    options.len(),
                    at,
                    work.len(),
                )
            },
        }
    }

    fn search_move(&self, work: &mut [u32], amount: usize) -> u64 {
        unsafe { chains_search_move(work.as_mut_ptr(), work.len(), amount) }
    }

    fn search_finish(&self, work: &mut [u32], out: &mut [u16]) -> u64 {
        unsafe { chains_search_finish(work.as_mut_ptr(), work.len(), out.as_mut_ptr(), out.len()) }
    }

    fn starts(&self, listed: Listed, work: &mut [u32], lengths: &mut [u32]) -> u64 {
        let (rec, pat, starts) = (listed.rec, listed.pat, listed.starts);
        let at = work.as_mut_ptr();
        match listed.options {
            None => unsafe {
                chains_starts(
                    rec.as_ptr(),
                    rec.len(),
                    pat.as_ptr(),
                    pat.len(),
                    starts.as_ptr(),
                    starts.len(),
                    listed.to,
                    at,
                    work.len(),
                    lengths.as_mut_ptr(),
                    lengths.len(),
                )
            },
            Some(options) => unsafe {
                chains_starts_with(
                    rec.as_ptr(),
                    rec.len(),
                    pat.as_ptr(),
                    pat.len(),
                    starts.as_ptr(),
                    starts.len(),
                    listed.to,
                    options.as_ptr(),
                    options.len(),
                    at,
                    work.len(),
                    lengths.as_mut_ptr(),
                    lengths.len(),
                )
            },
        }
    }
}
