//! Why a Map-Server refuses a datagram.

use crate::error::Error;
use lisp_registration_sys::*;
use std::fmt;

/// The number of no memory to receive a datagram, which the header has no name for.
const RECEIVE_OUT_OF_MEMORY: u16 = 58;

/// Why a Map-Server refuses a datagram (docs/PROTOCOL.md has their order). All is then as it was.
#[derive(Clone, Copy, Debug, PartialEq, Eq)]
pub enum Refusal {
    /// The datagram can't be read.
    Read {
        /// Why it can't.
        fault: Error,
    },
    /// No such Site-ID is configured.
    UnknownSite,
    /// The site has no secret for the Key ID.
    UnknownKey,
    /// The Authentication Data is wrong (RFC 9301 section 5.6).
    BadAuth,
    /// The merge bit is set (RFC 9301 section 5.6).
    MergeAsked,
    /// A record's prefix is not one that the site may register (RFC 9301 section 8.2).
    NotAllowed,
    /// The site lists its routers, and this one isn't among them.
    RouterNotListed,
    /// The site lists source addresses, and the datagram's isn't among them.
    SourceNotListed,
    /// A record would live for a TTL that the site doesn't let it have.
    TtlOutOfBounds,
    /// The nonce is not above the last one of that router under that key (RFC 9301 section 5.6).
    Replay,
    /// The nonce is further above that last one than the site lets it jump.
    Jump,
    /// As many routers have live rows of the site as may, and this one has none.
    TooManyRouters,
    /// The datagram brings a new row, and the site would have more live rows than it may.
    TooManyRows,
    /// The library got no memory to read the datagram, to hold its records or to build its answer.
    OutOfMemory,
    /// A Map-Notify-Ack that no notice waits for (RFC 9301 section 5.7).
    NoNotice,
    /// A Map-Notify, which is for routers.
    NotMine,
    /// The buffer has no room for an answer.
    Room {
        /// How many bytes it needs: as many as the datagram has.
        needed: usize,
    },
}

impl Refusal {
    /// The number of the refusal, as docs/REFUSALS.md and `lispd explain` have it.
    pub const fn number(self) -> u16 {
        match self {
            Refusal::Read { .. } => LISP_READ,
            Refusal::UnknownSite => LISP_UNKNOWN_SITE,
            Refusal::UnknownKey => LISP_UNKNOWN_KEY,
            Refusal::BadAuth => LISP_BAD_AUTH,
            Refusal::MergeAsked => LISP_MERGE_ASKED,
            Refusal::NotAllowed => LISP_NOT_ALLOWED,
            Refusal::RouterNotListed => LISP_ROUTER,
            Refusal::SourceNotListed => LISP_SOURCE,
            Refusal::TtlOutOfBounds => LISP_TTL,
            Refusal::Replay => LISP_REPLAY,
            Refusal::Jump => LISP_JUMP,
            Refusal::TooManyRouters => LISP_ROUTERS,
            Refusal::TooManyRows => LISP_ROWS,
            Refusal::OutOfMemory => RECEIVE_OUT_OF_MEMORY,
            Refusal::NoNotice => LISP_NO_NOTICE,
            Refusal::NotMine => LISP_NOT_MINE,
            Refusal::Room { .. } => LISP_ROOM,
        }
    }

    /// The refusal of a number that carries nothing else; panics as [`Error::of`] does.
    pub(super) fn of(number: u16) -> Refusal {
        match number {
            LISP_UNKNOWN_SITE => Refusal::UnknownSite,
            LISP_UNKNOWN_KEY => Refusal::UnknownKey,
            LISP_BAD_AUTH => Refusal::BadAuth,
            LISP_MERGE_ASKED => Refusal::MergeAsked,
            LISP_NOT_ALLOWED => Refusal::NotAllowed,
            LISP_ROUTER => Refusal::RouterNotListed,
            LISP_SOURCE => Refusal::SourceNotListed,
            LISP_TTL => Refusal::TtlOutOfBounds,
            LISP_REPLAY => Refusal::Replay,
            LISP_JUMP => Refusal::Jump,
            LISP_ROUTERS => Refusal::TooManyRouters,
            LISP_ROWS => Refusal::TooManyRows,
            RECEIVE_OUT_OF_MEMORY => Refusal::OutOfMemory,
            LISP_NO_NOTICE => Refusal::NoNotice,
            LISP_NOT_MINE => Refusal::NotMine,
            _ => unreachable!("liblisp_registration.a answered {number}"),
        }
    }
}

impl fmt::Display for Refusal {
    fn fmt(&self, f: &mut fmt::Formatter<'_>) -> fmt::Result {
        match self {
            Refusal::Read { .. } => f.write_str("the datagram can't be read"),
            Refusal::UnknownSite => f.write_str("no such Site-ID is configured"),
            Refusal::UnknownKey => f.write_str("the site has no secret for the Key ID"),
            Refusal::BadAuth => f.write_str("the Authentication Data is wrong"),
            Refusal::MergeAsked => f.write_str("the merge bit is set"),
            Refusal::NotAllowed => f.write_str("the site may not register a prefix"),
            Refusal::RouterNotListed => f.write_str("the site doesn't list the router"),
            Refusal::SourceNotListed => f.write_str("the site doesn't list the source address"),
            Refusal::TtlOutOfBounds => f.write_str("the site doesn't let a record have its TTL"),
            Refusal::Replay => f.write_str("the nonce is not above the last one"),
            Refusal::Jump => f.write_str("the nonce is too far above the last one"),
            Refusal::TooManyRouters => f.write_str("the site may have no more routers"),
            Refusal::TooManyRows => f.write_str("the site may have no more rows"),
            Refusal::OutOfMemory => f.write_str("out of memory"),
            Refusal::NoNotice => f.write_str("no notice waits for the Map-Notify-Ack"),
            Refusal::NotMine => f.write_str("a Map-Notify is for routers"),
            Refusal::Room { needed } => write!(f, "the buffer has no room for {needed} bytes"),
        }
    }
}

impl std::error::Error for Refusal {
    fn source(&self) -> Option<&(dyn std::error::Error + 'static)> {
        match self {
            Refusal::Read { fault } => Some(fault),
            _ => None,
        }
    }
}
