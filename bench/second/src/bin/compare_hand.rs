//! Compares the hand-written C with the second program: every reply, every lent word and the
//! chains, on the cases written by hand and on requests made at random. Both indexes of
//! lines are compared. Finding, the lengths from many places, checking, the words needed and the
//! count of boats are in C.
//!
//! `compare_hand CHECKS FINDS BOATS STARTS SEED`. It ends with status 1 at the first difference.

use reference::cases::{Bench, ALL};
use reference::library::{Ask, Library, Listed, Own};
use reference::random::Random;
use reference::record::Line;
use reference::rounds;
use std::process::exit;
use std::ptr;

type Find = unsafe extern "C" fn(
    rec: *const u8,
    rec_len: usize,
    pat: *const u8,
    pat_len: usize,
    from: u16,
    to: u16,
    options: *const u32,
    options_len: usize,
    work: *mut u32,
    work_len: usize,
    out: *mut u16,
    out_len: usize,
    reached: *mut u32,
) -> u64;

type Starts = unsafe extern "C" fn(
    rec: *const u8,
    rec_len: usize,
    pat: *const u8,
    pat_len: usize,
    starts: *const u16,
    starts_len: usize,
    to: u16,
    options: *const u32,
    options_len: usize,
    work: *mut u32,
    work_len: usize,
    lengths: *mut u32,
    lengths_len: usize,
    reached: *mut u32,
) -> u64;

#[link(name = "hand", kind = "static")]
extern "C" {
    fn hand_find(
        rec: *const u8,
        rec_len: usize,
        pat: *const u8,
        pat_len: usize,
        from: u16,
        to: u16,
        options: *const u32,
        options_len: usize,
        work: *mut u32,
        work_len: usize,
        out: *mut u16,
        out_len: usize,
        reached: *mut u32,
    ) -> u64;
    fn hand_find_grouped(
        rec: *const u8,
        rec_len: usize,
        pat: *const u8,
        pat_len: usize,
        from: u16,
        to: u16,
        options: *const u32,
        options_len: usize,
        work: *mut u32,
        work_len: usize,
        out: *mut u16,
        out_len: usize,
        reached: *mut u32,
    ) -> u64;
    fn hand_starts(
        rec: *const u8,
        rec_len: usize,
        pat: *const u8,
        pat_len: usize,
        starts: *const u16,
        starts_len: usize,
        to: u16,
        options: *const u32,
        options_len: usize,
        work: *mut u32,
        work_len: usize,
        lengths: *mut u32,
        lengths_len: usize,
        reached: *mut u32,
    ) -> u64;
    fn hand_starts_grouped(
        rec: *const u8,
        rec_len: usize,
        pat: *const u8,
        pat_len: usize,
        starts: *const u16,
        starts_len: usize,
        to: u16,
        options: *const u32,
        options_len: usize,
        work: *mut u32,
        work_len: usize,
        lengths: *mut u32,
        lengths_len: usize,
        reached: *mut u32,
    ) -> u64;
    fn hand_check(
        rec: *const u8,
        rec_len: usize,
        pat: *const u8,
        pat_len: usize,
        from: u16,
        to: u16,
        chain: *const u16,
        chain_len: usize,
        options: *const u32,
        options_len: usize,
        work: *mut u32,
        work_len: usize,
    ) -> u64;
    fn hand_words(rec: *const u8, rec_len: usize, pat: *const u8, pat_len: usize) -> u64;
    fn hand_boats(rec: *const u8, rec_len: usize, counts: *mut u32, counts_len: usize) -> u64;
}

/// The C with one of its indexes of lines.
struct Hand {
    find: Find,
    starts: Starts,
}

impl Library for Hand {
    fn begin(&self, buf: &mut [u8], places: u16) -> u64 {
        Own.begin(buf, places)
    }

    fn add(&self, buf: &mut [u8], len: usize, line: Line) -> u64 {
        Own.add(buf, len, line)
    }

    fn read(&self, rec: &[u8], number: u16, fields: &mut [u32]) -> u64 {
        Own.read(rec, number, fields)
    }

    fn pattern(&self, pat: &[u8], counts: &mut [u32]) -> u64 {
        Own.pattern(pat, counts)
    }

    fn boats(&self, rec: &[u8], counts: &mut [u32]) -> u64 {
        unsafe { hand_boats(rec.as_ptr(), rec.len(), counts.as_mut_ptr(), counts.len()) }
    }

    fn words(&self, rec: &[u8], pat: &[u8]) -> u64 {
        unsafe { hand_words(rec.as_ptr(), rec.len(), pat.as_ptr(), pat.len()) }
    }

    fn check(&self, ask: Ask, chain: &[u16], work: &mut [u32]) -> u64 {
        let options = ask.options.unwrap_or(&[]);
        unsafe {
            hand_check(
                ask.rec.as_ptr(),
                ask.rec.len(),
                ask.pat.as_ptr(),
                ask.pat.len(),
                ask.from,
                ask.to,
                chain.as_ptr(),
                chain.len(),
                options.as_ptr(),
                options.len(),
                work.as_mut_ptr(),
                work.len(),
            )
        }
    }

    fn find(&self, ask: Ask, work: &mut [u32], out: &mut [u16]) -> u64 {
        let options = ask.options.unwrap_or(&[]);
        unsafe {
            (self.find)(
                ask.rec.as_ptr(),
                ask.rec.len(),
                ask.pat.as_ptr(),
                ask.pat.len(),
                ask.from,
                ask.to,
                options.as_ptr(),
                options.len(),
                work.as_mut_ptr(),
                work.len(),
                out.as_mut_ptr(),
                out.len(),
                ptr::null_mut(),
            )
        }
    }

    fn search_words(&self, rec: &[u8], pat: &[u8]) -> u64 {
        Own.search_words(rec, pat)
    }

    fn search_begin(&self, ask: Ask, work: &mut [u32]) -> u64 {
        Own.search_begin(ask, work)
    }

    fn search_move(&self, work: &mut [u32], amount: usize) -> u64 {
        Own.search_move(work, amount)
    }

    fn search_finish(&self, work: &mut [u32], out: &mut [u16]) -> u64 {
        Own.search_finish(work, out)
    }

    fn starts(&self, listed: Listed, work: &mut [u32], lengths: &mut [u32]) -> u64 {
        let options = listed.options.unwrap_or(&[]);
        unsafe {
            (self.starts)(
                listed.rec.as_ptr(),
                listed.rec.len(),
                listed.pat.as_ptr(),
                listed.pat.len(),
                listed.starts.as_ptr(),
                listed.starts.len(),
                listed.to,
                options.as_ptr(),
                options.len(),
                work.as_mut_ptr(),
                work.len(),
                lengths.as_mut_ptr(),
                lengths.len(),
                ptr::null_mut(),
            )
        }
    }
}

fn main() {
    let numbers: Option<Vec<u64>> = std::env::args().skip(1).map(|a| a.parse().ok()).collect();
    let Some(&[checks, finds, boats, lists, seed]) = numbers.as_deref() else {
        eprintln!("compare_hand CHECKS FINDS BOATS STARTS SEED");
        exit(2);
    };
    for (name, find, starts) in [
        ("by place", hand_find as Find, hand_starts as Starts),
        ("grouped", hand_find_grouped, hand_starts_grouped),
    ] {
        let hand = Hand { find, starts };
        let bench = Bench { library: &hand };
        for case in ALL {
            stop_at((case.run)(&bench).map(|_| ()), case.name);
        }
        let mut random = Random::new(seed);
        let mut refused = 0;
        let mut found = 0;
        for _ in 0..checks {
            stop_at(rounds::check(&hand, &mut random).map(|_| ()), "check");
        }
        for _ in 0..finds {
            let replies = stop_at(rounds::find(&hand, &mut random), "find");
            refused += u64::from(replies[0] >> 32 != 0);
            found += u64::from(replies[0] < 4_294_967_295);
        }
        for _ in 0..boats {
            stop_at(rounds::boats(&hand, &mut random).map(|_| ()), "boats");
        }
        let mut unanswered = 0;
        for _ in 0..lists {
            let replies = stop_at(rounds::starts(&hand, &mut random), "starts");
            unanswered += u64::from(replies[0] >> 32 != 0);
        }
        println!(
            "hand-written C, lines {name}: {} cases, {checks} checks, {finds} finds ({found} found, {refused} refused), {boats} counts of boats, {lists} lists of places ({unanswered} refused), no difference",
            ALL.len()
        );
    }
}

fn stop_at<T>(result: Result<T, String>, what: &str) -> T {
    result.unwrap_or_else(|difference| {
        println!("{what}: DIFFERENT\n{difference}");
        exit(1)
    })
}
