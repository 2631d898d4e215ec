//! The proved library's functions, called with slices. All of this crate's `unsafe` is here.
//!
//! The library wants of every slice a pointer that is not null and is aligned, and so many
//! entries behind it; of those it writes to, that nothing else uses them meanwhile. Rust's
//! slices have all of this, empty ones too, so every function here may be called with any.
//! The declarations are those of `include/chains.h`; nothing but the tests compares them
//! with the library's source.
#![allow(unsafe_code)]

use crate::Line;

extern "C" {
    fn chains_begin(buf: *mut u8, buf_len: usize, places: u16) -> u64;
    fn chains_add(
        buf: *mut u8,
        buf_len: usize,
        len: usize,
        from: u16,
        kind: u8,
        class_: u8,
        sail: u32,
        to: u16,
    ) -> u64;
    fn chains_add_timed(
        buf: *mut u8,
        buf_len: usize,
        len: usize,
        from: u16,
        kind: u8,
        class_: u8,
        sail: u32,
        to: u16,
        time: u32,
    ) -> u64;
    fn chains_read(
        rec: *const u8,
        rec_len: usize,
        line: u16,
        fields: *mut u32,
        fields_len: usize,
    ) -> u64;
    fn chains_pattern(pat: *const u8, pat_len: usize, counts: *mut u32, counts_len: usize) -> u64;
    fn chains_boats(rec: *const u8, rec_len: usize, counts: *mut u32, counts_len: usize) -> u64;
    fn chains_words(rec: *const u8, rec_len: usize, pat: *const u8, pat_len: usize) -> u64;
    fn chains_check(
        rec: *const u8,
        rec_len: usize,
        pat: *const u8,
        pat_len: usize,
        from: u16,
        to: u16,
        chain: *const u16,
        chain_len: usize,
        work: *mut u32,
        work_len: usize,
    ) -> u64;
    fn chains_check_with(
        rec: *const u8,
        rec_len: usize,
        pat: *const u8,
        pat_len: usize,
        from: u16,
        to: u16,
        chain: *const u16,
        chain_len: usize,
        options: *const u32,
        options_len: usize,
        work: *mut u32,
        work_len: usize,
    ) -> u64;
    fn chains_find(
        rec: *const u8,
        rec_len: usize,
        pat: *const u8,
        pat_len: usize,
        from: u16,
        to: u16,
        work: *mut u32,
        work_len: usize,
        out: *mut u16,
        out_len: usize,
    ) -> u64;
    fn chains_find_with(
        rec: *const u8,
        rec_len: usize,
        pat: *const u8,
        pat_len: usize,
        from: u16,
        to: u16,
        options: *const u32,
        options_len: usize,
        work: *mut u32,
        work_len: usize,
        out: *mut u16,
        out_len: usize,
    ) -> u64;
    fn chains_starts(
        rec: *const u8,
        rec_len: usize,
        pat: *const u8,
        pat_len: usize,
        starts: *const u16,
        starts_len: usize,
        to: u16,
        work: *mut u32,
        work_len: usize,
        lengths: *mut u32,
        lengths_len: usize,
    ) -> u64;
    fn chains_starts_with(
        rec: *const u8,
        rec_len: usize,
        pat: *const u8,
        pat_len: usize,
        starts: *const u16,
        starts_len: usize,
        to: u16,
        options: *const u32,
        options_len: usize,
        work: *mut u32,
        work_len: usize,
        lengths: *mut u32,
        lengths_len: usize,
    ) -> u64;
    fn chains_search_words(rec: *const u8, rec_len: usize, pat: *const u8, pat_len: usize) -> u64;
    fn chains_search_begin(
        rec: *const u8,
        rec_len: usize,
        pat: *const u8,
        pat_len: usize,
        from: u16,
        to: u16,
        work: *mut u32,
        work_len: usize,
    ) -> u64;
    fn chains_search_begin_with(
        rec: *const u8,
        rec_len: usize,
        pat: *const u8,
        pat_len: usize,
        from: u16,
        to: u16,
        options: *const u32,
        options_len: usize,
        work: *mut u32,
        work_len: usize,
    ) -> u64;
    fn chains_search_move(work: *mut u32, work_len: usize, amount: usize) -> u64;
    fn chains_search_finish(work: *mut u32, work_len: usize, out: *mut u16, out_len: usize) -> u64;
    fn chains_version() -> u64;
}

pub fn begin(buf: &mut [u8], places: u16) -> u64 {
    // SAFETY: pointer and length of a slice that is borrowed for writing.
    unsafe { chains_begin(buf.as_mut_ptr(), buf.len(), places) }
}

pub fn add(buf: &mut [u8], len: usize, line: Line) -> u64 {
    #[cfg(test)]
    counted::one_more();
    let Line {
        from,
        kind,
        class,
        sail,
        to,
    } = line;
    // SAFETY: pointer and length of a slice that is borrowed for writing; `len` may be any
    // number.
    unsafe {
        chains_add(
            buf.as_mut_ptr(),
            buf.len(),
            len,
            from,
            kind,
            class,
            sail,
            to,
        )
    }
}

pub fn add_timed(buf: &mut [u8], len: usize, line: Line, time: u32) -> u64 {
    #[cfg(test)]
    counted::one_more();
    let Line {
        from,
        kind,
        class,
        sail,
        to,
    } = line;
    // SAFETY: pointer and length of a slice that is borrowed for writing; `len` and `time` may be
    // any numbers.
    unsafe {
        chains_add_timed(
            buf.as_mut_ptr(),
            buf.len(),
            len,
            from,
            kind,
            class,
            sail,
            to,
            time,
        )
    }
}

pub fn read(record: &[u8], number: u16, fields: &mut [u32]) -> u64 {
    #[cfg(test)]
    counted::one_more();
    // SAFETY: pointers and lengths of slices, the second borrowed for writing.
    unsafe {
        chains_read(
            record.as_ptr(),
            record.len(),
            number,
            fields.as_mut_ptr(),
            fields.len(),
        )
    }
}

pub fn pattern(pattern: &[u8], counts: &mut [u32]) -> u64 {
    // SAFETY: pointers and lengths of slices, the second borrowed for writing.
    unsafe {
        chains_pattern(
            pattern.as_ptr(),
            pattern.len(),
            counts.as_mut_ptr(),
            counts.len(),
        )
    }
}

pub fn boats(record: &[u8], counts: &mut [u32]) -> u64 {
    // SAFETY: pointers and lengths of slices, the second borrowed for writing.
    unsafe {
        chains_boats(
            record.as_ptr(),
            record.len(),
            counts.as_mut_ptr(),
            counts.len(),
        )
    }
}

pub fn words(record: &[u8], pattern: &[u8]) -> u64 {
    // SAFETY: pointers and lengths of slices.
    unsafe {
        chains_words(
            record.as_ptr(),
            record.len(),
            pattern.as_ptr(),
            pattern.len(),
        )
    }
}

pub fn check(
    record: &[u8],
    pattern: &[u8],
    from: u16,
    to: u16,
    chain: &[u16],
    work: &mut [u32],
) -> u64 {
    // SAFETY: pointers and lengths of slices, the last borrowed for writing.
    unsafe {
        chains_check(
            record.as_ptr(),
            record.len(),
            pattern.as_ptr(),
            pattern.len(),
            from,
            to,
            chain.as_ptr(),
            chain.len(),
            work.as_mut_ptr(),
            work.len(),
        )
    }
}

pub fn check_with(
    record: &[u8],
    pattern: &[u8],
    from: u16,
    to: u16,
    chain: &[u16],
    options: &[u32],
    work: &mut [u32],
) -> u64 {
    // SAFETY: pointers and lengths of slices, the last borrowed for writing.
    unsafe {
        chains_check_with(
            record.as_ptr(),
            record.len(),
            pattern.as_ptr(),
            pattern.len(),
            from,
            to,
            chain.as_ptr(),
            chain.len(),
            options.as_ptr(),
            options.len(),
            work.as_mut_ptr(),
            work.len(),
        )
    }
}

pub fn find(
    record: &[u8],
    pattern: &[u8],
    from: u16,
    to: u16,
    work: &mut [u32],
    out: &mut [u16],
) -> u64 {
    // SAFETY: pointers and lengths of slices, the last two borrowed for writing and so apart.
    unsafe {
        chains_find(
            record.as_ptr(),
            record.len(),
            pattern.as_ptr(),
            pattern.len(),
            from,
            to,
            work.as_mut_ptr(),
            work.len(),
            out.as_mut_ptr(),
            out.len(),
        )
    }
}

pub fn find_with(
    record: &[u8],
    pattern: &[u8],
    from: u16,
    to: u16,
    options: &[u32],
    work: &mut [u32],
    out: &mut [u16],
) -> u64 {
    // SAFETY: pointers and lengths of slices, the last two borrowed for writing and so apart.
    unsafe {
        chains_find_with(
            record.as_ptr(),
            record.len(),
            pattern.as_ptr(),
            pattern.len(),
            from,
            to,
            options.as_ptr(),
            options.len(),
            work.as_mut_ptr(),
            work.len(),
            out.as_mut_ptr(),
            out.len(),
        )
    }
}

pub fn starts(
    record: &[u8],
    pattern: &[u8],
    starts: &[u16],
    to: u16,
    work: &mut [u32],
    lengths: &mut [u32],
) -> u64 {
    // SAFETY: pointers and lengths of slices, the last two borrowed for writing and so apart.
    unsafe {
        chains_starts(
            record.as_ptr(),
            record.len(),
            pattern.as_ptr(),
            pattern.len(),
            starts.as_ptr(),
            starts.len(),
            to,
            work.as_mut_ptr(),
            work.len(),
            lengths.as_mut_ptr(),
            lengths.len(),
        )
    }
}

pub fn starts_with(
    record: &[u8],
    pattern: &[u8],
    starts: &[u16],
    to: u16,
    options: &[u32],
    work: &mut [u32],
    lengths: &mut [u32],
) -> u64 {
    // SAFETY: pointers and lengths of slices, the last two borrowed for writing and so apart.
    unsafe {
        chains_starts_with(
            record.as_ptr(),
            record.len(),
            pattern.as_ptr(),
            pattern.len(),
            starts.as_ptr(),
            starts.len(),
            to,
            options.as_ptr(),
            options.len(),
            work.as_mut_ptr(),
            work.len(),
            lengths.as_mut_ptr(),
            lengths.len(),
        )
    }
}

pub fn search_words(record: &[u8], pattern: &[u8]) -> u64 {
    // SAFETY: pointers and lengths of slices.
    unsafe {
        chains_search_words(
            record.as_ptr(),
            record.len(),
            pattern.as_ptr(),
            pattern.len(),
        )
    }
}

pub fn search_begin(record: &[u8], pattern: &[u8], from: u16, to: u16, work: &mut [u32]) -> u64 {
    // SAFETY: pointers and lengths of slices, the last borrowed for writing.
    unsafe {
        chains_search_begin(
            record.as_ptr(),
            record.len(),
            pattern.as_ptr(),
            pattern.len(),
            from,
            to,
            work.as_mut_ptr(),
            work.len(),
        )
    }
}

pub fn search_begin_with(
    record: &[u8],
    pattern: &[u8],
    from: u16,
    to: u16,
    options: &[u32],
    work: &mut [u32],
) -> u64 {
    // SAFETY: pointers and lengths of slices, the last borrowed for writing.
    unsafe {
        chains_search_begin_with(
            record.as_ptr(),
            record.len(),
            pattern.as_ptr(),
            pattern.len(),
            from,
            to,
            options.as_ptr(),
            options.len(),
            work.as_mut_ptr(),
            work.len(),
        )
    }
}

pub fn search_move(work: &mut [u32], amount: usize) -> u64 {
    // SAFETY: pointer and length of a slice that is borrowed for writing; what it holds and
    // `amount` may be anything.
    unsafe { chains_search_move(work.as_mut_ptr(), work.len(), amount) }
}

pub fn search_finish(work: &mut [u32], out: &mut [u16]) -> u64 {
    // SAFETY: pointers and lengths of slices, both borrowed for writing and so apart; what the
    // first holds may be anything.
    unsafe { chains_search_finish(work.as_mut_ptr(), work.len(), out.as_mut_ptr(), out.len()) }
}

pub fn version() -> u64 {
    // SAFETY: it is lent nothing.
    unsafe { chains_version() }
}

/// The crate's own tests count the calls of functions that read a record, to see what costs one.
#[cfg(test)]
pub mod counted {
    use std::cell::Cell;

    thread_local! {
        static CALLS: Cell<usize> = const { Cell::new(0) };
    }

    /// How many times this thread has called [`super::read`], [`super::add`] and
    /// [`super::add_timed`].
    pub fn calls() -> usize {
        CALLS.get()
    }

    pub fn one_more() {
        CALLS.set(CALLS.get() + 1);
    }
}
