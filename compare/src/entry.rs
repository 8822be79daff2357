//! The start of both programs.

use std::panic::catch_unwind;

/// Runs `run` on the command's words and gives the exit status: its own, or 101 after a panic.
pub fn status_of(run: fn(&[String]) -> i32) -> i32 {
    let words: Vec<String> = std::env::args().skip(1).collect();
    catch_unwind(|| run(&words)).unwrap_or(101)
}

/// Defines the C entry point of a program. The usual start of a Rust program reads
/// `/proc/self/maps` to find the stack's end, and some versions of the emulator end with a fault
/// there; these programs need nothing of that start.
#[macro_export]
macro_rules! entry {
    ($run:path) => {
        #[no_mangle]
        pub extern "C" fn main(
            _count: std::os::raw::c_int,
            _words: *const *const std::os::raw::c_char,
        ) -> std::os::raw::c_int {
            $crate::entry::status_of($run)
        }
    };
}
