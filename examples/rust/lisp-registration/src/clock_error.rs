//! Times that are too large.

use lisp_registration_sys::LISP_CLOCK;
use std::fmt;

/// A time above 2^62 ms was given. All is as it was.
#[derive(Clone, Copy, Debug, PartialEq, Eq)]
pub struct ClockError;

impl ClockError {
    /// The number of the fault, as docs/REFUSALS.md and `lispd explain` have it.
    pub const fn number(self) -> u16 {
        LISP_CLOCK
    }
}

impl fmt::Display for ClockError {
    fn fmt(&self, f: &mut fmt::Formatter<'_>) -> fmt::Result {
        f.write_str("the time is above 2^62 ms")
    }
}

impl std::error::Error for ClockError {}
