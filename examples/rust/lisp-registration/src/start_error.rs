//! Why there is no Map-Server or no router of a configuration.

use lisp_registration_sys::*;
use std::fmt;

/// The number of no memory to read a configuration, which the header has no name for.
const CONFIGURATION_OUT_OF_MEMORY: u16 = 24;

/// Why there is no Map-Server or no router of a configuration (docs/CONFIGURATION.md). The number for bytes that are not UTF-8
/// (`LISP_NOT_UTF8`) has no variant, since a `str` is.
#[derive(Clone, Copy, Debug, PartialEq, Eq)]
pub enum StartError {
    /// The configuration is not valid TOML.
    Toml,
    /// A field is absent, and has no default.
    Missing,
    /// A value is of another type or form, out of its range, or names what isn't there.
    BadValue,
    /// Two entries are alike where no two may be.
    Repeated,
    /// The library got no memory to read the configuration.
    ConfigurationOutOfMemory,
    /// The library got no memory for the Map-Server or the router.
    OutOfMemory,
    /// No router of the configuration has the name. Of a router alone.
    NoRouter,
}

impl StartError {
    /// The number of the fault, as docs/REFUSALS.md and `lispd explain` have it.
    pub const fn number(self) -> u16 {
        match self {
            StartError::Toml => LISP_TOML,
            StartError::Missing => LISP_MISSING,
            StartError::BadValue => LISP_BAD_VALUE,
            StartError::Repeated => LISP_REPEATED,
            StartError::ConfigurationOutOfMemory => CONFIGURATION_OUT_OF_MEMORY,
            StartError::OutOfMemory => LISP_OUT_OF_MEMORY,
            StartError::NoRouter => LISP_NO_ROUTER,
        }
    }

    /// The fault of a number; panics as `Error::of` does.
    pub(crate) fn of(number: u16) -> StartError {
        match number {
            LISP_TOML => StartError::Toml,
            LISP_MISSING => StartError::Missing,
            LISP_BAD_VALUE => StartError::BadValue,
            LISP_REPEATED => StartError::Repeated,
            CONFIGURATION_OUT_OF_MEMORY => StartError::ConfigurationOutOfMemory,
            LISP_OUT_OF_MEMORY => StartError::OutOfMemory,
            LISP_NO_ROUTER => StartError::NoRouter,
            _ => unreachable!("liblisp_registration.a answered {number}"),
        }
    }
}

impl fmt::Display for StartError {
    fn fmt(&self, f: &mut fmt::Formatter<'_>) -> fmt::Result {
        f.write_str(match self {
            StartError::Toml => "the configuration is not valid TOML",
            StartError::Missing => "a field of the configuration is absent",
            StartError::BadValue => "a value of the configuration is a bad one",
            StartError::Repeated => "two entries of the configuration are alike",
            StartError::ConfigurationOutOfMemory => "out of memory to read the configuration",
            StartError::OutOfMemory => "out of memory",
            StartError::NoRouter => "no router of the configuration has the name",
        })
    }
}

impl std::error::Error for StartError {}
