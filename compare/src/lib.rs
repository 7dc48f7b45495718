//! Holds the proved house recovery machine against the reference, a second implementation of the same
//! rules.
//!
//! - [`proved`]: the proved machine, through its binding for Rust, and so through the C interface.
//! - [`house`]: the proved program, through its standard input and output.
//! - [`agreement`]: the same step on both machines, and the first thing in which they differ.
//! - [`inputs`]: the lists and lent tables that are gone through.
//! - [`desk`]: what became of the releases of readings for the desk, in words.
//! - [`coverage`]: what a comparison has come across, so that a test can ask for all of it.

pub mod agreement;
pub mod coverage;
pub mod desk;
pub mod house;
pub mod inputs;
pub mod proved;

pub use proved::{in_form, is_checkpoint, step};

/// How much to do: so much, or twenty times as much where `COMPARE_LONG` is 1.
pub fn effort(usual: u64) -> u64 {
    let long = std::env::var_os("COMPARE_LONG").is_some_and(|value| value == "1");
    if long {
        20 * usual
    } else {
        usual
    }
}
