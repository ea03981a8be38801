//! Why bytes can't be read, or a message can't be written.

use lisp_registration_sys::*;
use std::fmt;

/// Why a datagram can't be read, signed or written. The two numbers for what only C can pass (`LISP_NULL` and `LISP_LENGTH`) have
/// no variant.
#[derive(Clone, Copy, Debug, PartialEq, Eq)]
pub enum Error {
    /// The bytes end before the message does.
    Short,
    /// A type other than 3, 4 and 5 (RFC 9301 section 5.1).
    Kind,
    /// An Algorithm ID other than 2, HMAC-SHA-256-128-None (RFC 9301 section 12.5).
    Algorithm,
    /// An Authentication Data Length other than 16 (RFC 9301 section 5.6).
    AuthenticationLength,
    /// A Map-Register with bit I clear: it has no xTR-ID and Site-ID (RFC 9301 section 5.6).
    NoIds,
    /// Bytes after the end of the message.
    Trailing,
    /// A record that can't be read (RFC 9301 section 5.4): the first one, counted from 0.
    Record {
        /// Which record it is.
        index: usize,
        /// Why it can't be read.
        fault: RecordFault,
    },
    /// The buffer has no room for the message.
    Room {
        /// How many bytes the message needs.
        needed: usize,
    },
    /// A field has no place in a message: a mask longer than its address, ACT above 7, or a Map-Version number above 4095.
    Field,
    /// More than 255 records, or more than 255 locators in one.
    Counts,
    /// The library got no memory.
    OutOfMemory,
}

impl Error {
    /// The number of the fault, as docs/REFUSALS.md and `lispd explain` have it.
    pub const fn number(self) -> u16 {
        match self {
            Error::Short => LISP_SHORT,
            Error::Kind => LISP_KIND,
            Error::Algorithm => LISP_ALGORITHM,
            Error::AuthenticationLength => LISP_AUTH_LENGTH,
            Error::NoIds => LISP_NO_IDS,
            Error::Trailing => LISP_TRAILING,
            Error::Record { .. } => LISP_RECORD,
            Error::Room { .. } => LISP_ROOM,
            Error::Field => LISP_FIELD,
            Error::Counts => LISP_COUNTS,
            Error::OutOfMemory => LISP_OUT_OF_MEMORY,
        }
    }

    /// The fault of a number that carries nothing else.
    ///
    /// # Panics
    ///
    /// For a number that the header doesn't have: the archive is then of another version, and its structs may be too.
    pub(crate) fn of(number: u16) -> Error {
        match number {
            LISP_SHORT => Error::Short,
            LISP_KIND => Error::Kind,
            LISP_ALGORITHM => Error::Algorithm,
            LISP_AUTH_LENGTH => Error::AuthenticationLength,
            LISP_NO_IDS => Error::NoIds,
            LISP_TRAILING => Error::Trailing,
            LISP_FIELD => Error::Field,
            LISP_COUNTS => Error::Counts,
            LISP_OUT_OF_MEMORY => Error::OutOfMemory,
            _ => unreachable!("liblisp_registration.a answered {number}"),
        }
    }
}

impl fmt::Display for Error {
    fn fmt(&self, f: &mut fmt::Formatter<'_>) -> fmt::Result {
        match self {
            Error::Short => f.write_str("the bytes end before the message does"),
            Error::Kind => f.write_str("the type is none of 3, 4 and 5"),
            Error::Algorithm => f.write_str("the Algorithm ID is not 2"),
            Error::AuthenticationLength => f.write_str("the Authentication Data Length is not 16"),
            Error::NoIds => f.write_str("the Map-Register has no xTR-ID and Site-ID"),
            Error::Trailing => f.write_str("bytes stand after the end of the message"),
            Error::Record { index, .. } => write!(f, "record {index} can't be read"),
            Error::Room { needed } => write!(f, "the buffer has no room for {needed} bytes"),
            Error::Field => f.write_str("a field has no place in a message"),
            Error::Counts => f.write_str("a message or a record has more than 255 items"),
            Error::OutOfMemory => f.write_str("out of memory"),
        }
    }
}

impl std::error::Error for Error {
    fn source(&self) -> Option<&(dyn std::error::Error + 'static)> {
        match self {
            Error::Record { fault, .. } => Some(fault),
            _ => None,
        }
    }
}

/// Why a record can't be read (RFC 9301 section 5.4).
#[derive(Clone, Copy, Debug, PartialEq, Eq)]
pub enum RecordFault {
    /// The bytes end before the record does.
    Short,
    /// An address family that is neither IPv4 nor IPv6, of the EID-Prefix or of a locator.
    Afi,
    /// An EID mask longer than its address.
    Mask,
}

impl RecordFault {
    /// The number of the fault, as docs/REFUSALS.md and `lispd explain` have it.
    pub const fn number(self) -> u16 {
        match self {
            RecordFault::Short => LISP_SHORT,
            RecordFault::Afi => LISP_AFI,
            RecordFault::Mask => LISP_MASK,
        }
    }

    /// The fault of a number; panics as [`Error::of`] does.
    pub(crate) fn of(number: u16) -> RecordFault {
        match number {
            LISP_SHORT => RecordFault::Short,
            LISP_AFI => RecordFault::Afi,
            LISP_MASK => RecordFault::Mask,
            _ => unreachable!("liblisp_registration.a answered {number}"),
        }
    }
}

impl fmt::Display for RecordFault {
    fn fmt(&self, f: &mut fmt::Formatter<'_>) -> fmt::Result {
        f.write_str(match self {
            RecordFault::Short => "the bytes end before the record does",
            RecordFault::Afi => "an address family is neither IPv4 nor IPv6",
            RecordFault::Mask => "the EID mask is longer than its address",
        })
    }
}

impl std::error::Error for RecordFault {}
