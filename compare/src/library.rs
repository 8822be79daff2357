//! The code that is compared and timed: the proved static library, or the plain version in its
//! place.

#[cfg(not(feature = "library"))]
pub use crate::plain::{
    answer, check, edf, explain, growth, print, replay, report, rewrite, scaled, write_value,
};
#[cfg(feature = "library")]
pub use linked::{answer, check, edf, explain, growth, print, replay, report, rewrite, scaled};
#[cfg(feature = "values")]
pub use values::write_value;

#[cfg(all(feature = "library", not(feature = "values")))]
compile_error!("the proved library is compared together with the feature `values`");

pub const IS_LINKED: bool = cfg!(feature = "library");

pub const NAME: &str = if IS_LINKED { "proved" } else { "stand-in" };

#[cfg(feature = "library")]
mod linked {
    #[link(name = "crpd", kind = "static")]
    extern "C" {
        fn crpd_answer(text: *const u8, text_len: usize, method: u64, position: u64) -> u64;
        fn crpd_report(text: *const u8, text_len: usize, out: *mut u8, out_len: usize) -> u64;
        fn crpd_print(text: *const u8, text_len: usize, out: *mut u8, out_len: usize) -> u64;
        fn crpd_rewrite(text: *const u8, text_len: usize, out: *mut u8, out_len: usize) -> u64;
        fn crpd_explain(
            text: *const u8,
            text_len: usize,
            method: u64,
            position: u64,
            out: *mut u8,
            out_len: usize,
        ) -> u64;
        fn crpd_growth(text: *const u8, text_len: usize, method: u64) -> u64;
        fn crpd_scaled(
            text: *const u8,
            text_len: usize,
            method: u64,
            out: *mut u8,
            out_len: usize,
        ) -> u64;
        fn crpd_check(
            text: *const u8,
            text_len: usize,
            list: *const u8,
            list_len: usize,
            method: u64,
            out: *mut u8,
            out_len: usize,
        ) -> u64;
        fn crpd_edf(text: *const u8, text_len: usize) -> u64;
        fn crpd_replay(text: *const u8, text_len: usize, position: u64) -> u64;
    }

    pub fn answer(text: &[u8], method: u64, position: u64) -> u64 {
        // SAFETY: the pointer and length are of one slice that lives over the call
        unsafe { crpd_answer(text.as_ptr(), text.len(), method, position) }
    }

    pub fn report(text: &[u8], out: &mut [u8]) -> u64 {
        // SAFETY: each pointer and length are of one slice that lives over the call
        unsafe { crpd_report(text.as_ptr(), text.len(), out.as_mut_ptr(), out.len()) }
    }

    pub fn print(text: &[u8], out: &mut [u8]) -> u64 {
        // SAFETY: each pointer and length are of one slice that lives over the call
        unsafe { crpd_print(text.as_ptr(), text.len(), out.as_mut_ptr(), out.len()) }
    }

    pub fn rewrite(text: &[u8], out: &mut [u8]) -> u64 {
        // SAFETY: each pointer and length are of one slice that lives over the call
        unsafe { crpd_rewrite(text.as_ptr(), text.len(), out.as_mut_ptr(), out.len()) }
    }

    pub fn explain(text: &[u8], method: u64, position: u64, out: &mut [u8]) -> u64 {
        let (start, room) = (out.as_mut_ptr(), out.len());
        // SAFETY: each pointer and length are of one slice that lives over the call
        unsafe { crpd_explain(text.as_ptr(), text.len(), method, position, start, room) }
    }

    pub fn growth(text: &[u8], method: u64) -> u64 {
        // SAFETY: the pointer and length are of one slice that lives over the call
        unsafe { crpd_growth(text.as_ptr(), text.len(), method) }
    }

    pub fn scaled(text: &[u8], method: u64, out: &mut [u8]) -> u64 {
        let (start, room) = (out.as_mut_ptr(), out.len());
        // SAFETY: each pointer and length are of one slice that lives over the call
        unsafe { crpd_scaled(text.as_ptr(), text.len(), method, start, room) }
    }

    pub fn check(text: &[u8], list: &[u8], method: u64, out: &mut [u8]) -> u64 {
        let (from, length) = (list.as_ptr(), list.len());
        let (start, room) = (out.as_mut_ptr(), out.len());
        // SAFETY: each pointer and length are of one slice that lives over the call
        unsafe { crpd_check(text.as_ptr(), text.len(), from, length, method, start, room) }
    }

    pub fn edf(text: &[u8]) -> u64 {
        // SAFETY: the pointer and length are of one slice that lives over the call
        unsafe { crpd_edf(text.as_ptr(), text.len()) }
    }

    pub fn replay(text: &[u8], position: u64) -> u64 {
        // SAFETY: the pointer and length are of one slice that lives over the call
        unsafe { crpd_replay(text.as_ptr(), text.len(), position) }
    }
}

/// The writing of any table value, which no text need give.
///
/// A value is a list of 2,789 numbers; what follows in a longer list is not looked at, and of a shorter
/// one 0 is returned and nothing written. It has, in this order:
///
/// - the number of cache sets, the block reload time, the form and the number of tasks. The form is 0
///   where line 1 has three fields, and the number of ways where it has four;
/// - 32 places of tasks, of 52 numbers each: the 12 bytes of the name, filled up with zeros, then
///   C, T, D and J, then the 32 words of the UCB and the 4 words of the ECB;
/// - the number of accesses;
/// - 32 places of accesses, of 35 numbers each: the positions of the task and of the ceiling, the length,
///   and the 32 words of the UCB.
///
/// Four words are some of the cache sets, where set s is bit s % 64 of word s / 64. The 32 words of a UCB are
/// eight levels of four words, level 0 first. Level l has the sets with more than l useful blocks: a set
/// with three is in the levels 0, 1 and 2, and in no other. So a UCB in hex is in level 0 alone, and with w
/// ways the levels from w on are empty.
///
/// A set in a level and not in the one below, one in a level from the ways on, and a text that would have
/// more than 16,384 bytes are reasons for 25, as everything else is that no accepted text gives.
#[cfg(feature = "values")]
mod values {
    #[link(name = "test_values", kind = "static")]
    extern "C" {
        fn test_write(numbers: *const u64, numbers_len: usize, out: *mut u8, out_len: usize)
            -> u64;
    }

    pub fn write_value(numbers: &[u64], out: &mut [u8]) -> u64 {
        let (start, room) = (out.as_mut_ptr(), out.len());
        // SAFETY: each pointer and length are of one slice that lives over the call
        unsafe { test_write(numbers.as_ptr(), numbers.len(), start, room) }
    }
}

/// The parts of the proved code's work, for the benchmark to time apart.
#[cfg(feature = "parts")]
pub mod parts {
    #[link(name = "bench_parts", kind = "static")]
    extern "C" {
        /// Reads the table.
        fn bench_read(text: *const u8, text_len: usize) -> u64;
        /// Reads the table once and answers every task under every method `times` times.
        fn bench_answers(text: *const u8, text_len: usize, times: u64) -> u64;
        /// Reads and answers once and writes the report to `out` `times` times.
        fn bench_write(
            text: *const u8,
            text_len: usize,
            times: u64,
            out: *mut u8,
            out_len: usize,
        ) -> u64;
        /// Reads the table once and writes its text to `out` `times` times.
        fn bench_rewrite(
            text: *const u8,
            text_len: usize,
            times: u64,
            out: *mut u8,
            out_len: usize,
        ) -> u64;
    }

    pub fn read(text: &[u8]) -> u64 {
        // SAFETY: the pointer and length are of one slice that lives over the call
        unsafe { bench_read(text.as_ptr(), text.len()) }
    }

    pub fn answers(text: &[u8], times: u64) -> u64 {
        // SAFETY: the pointer and length are of one slice that lives over the call
        unsafe { bench_answers(text.as_ptr(), text.len(), times) }
    }

    pub fn write(text: &[u8], times: u64, out: &mut [u8]) -> u64 {
        let (start, room) = (out.as_mut_ptr(), out.len());
        // SAFETY: each pointer and length are of one slice that lives over the call
        unsafe { bench_write(text.as_ptr(), text.len(), times, start, room) }
    }

    pub fn rewrite(text: &[u8], times: u64, out: &mut [u8]) -> u64 {
        let (start, room) = (out.as_mut_ptr(), out.len());
        // SAFETY: each pointer and length are of one slice that lives over the call
        unsafe { bench_rewrite(text.as_ptr(), text.len(), times, start, room) }
    }
}
