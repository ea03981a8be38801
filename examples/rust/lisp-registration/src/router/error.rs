//! Why a router sends nothing, or refuses a datagram.

use crate::error::Error;
use lisp_registration_sys::*;
use std::fmt;

/// The number of no memory for a Map-Register or for a datagram, which the header has no name for.
const ROUTER_OUT_OF_MEMORY: u16 = 48;

/// Why a router makes no Map-Register (docs/REFUSALS.md has their order). All is then as it was.
#[derive(Clone, Copy, Debug, PartialEq, Eq)]
pub enum SendError {
    /// The buffer has no room for any Map-Register.
    Room {
        /// How many bytes it needs, which are [`MESSAGE_ROOM`](crate::MESSAGE_ROOM).
        needed: usize,
    },
    /// The time is above 2^62 ms.
    Clock,
    /// The router has no Map-Server with that number.
    NoServer,
    /// The router's database has no such part.
    NoPart,
    /// The last nonce is 2^63 - 1 or more: the router needs a new key.
    NonceSpent,
    /// The library got no memory for the Map-Register.
    OutOfMemory,
}

impl SendError {
    /// The number of the fault, as docs/REFUSALS.md and `lispd explain` have it.
    pub const fn number(self) -> u16 {
        match self {
            SendError::Room { .. } => LISP_ROOM,
            SendError::Clock => LISP_CLOCK,
            SendError::NoServer => LISP_NO_SERVER,
            SendError::NoPart => LISP_NO_PART,
            SendError::NonceSpent => LISP_ROUTER_NONCE_SPENT,
            SendError::OutOfMemory => ROUTER_OUT_OF_MEMORY,
        }
    }

    /// The fault of a number; panics as `Error::of` does.
    pub(super) fn of(number: u16) -> SendError {
        match number {
            LISP_ROOM => SendError::Room { needed: LISP_MESSAGE_ROOM },
            LISP_CLOCK => SendError::Clock,
            LISP_NO_SERVER => SendError::NoServer,
            LISP_NO_PART => SendError::NoPart,
            LISP_ROUTER_NONCE_SPENT => SendError::NonceSpent,
            ROUTER_OUT_OF_MEMORY => SendError::OutOfMemory,
            _ => unreachable!("liblisp_registration.a answered {number}"),
        }
    }
}

impl fmt::Display for SendError {
    fn fmt(&self, f: &mut fmt::Formatter<'_>) -> fmt::Result {
        match self {
            SendError::Room { needed } => write!(f, "the buffer needs room for {needed} bytes"),
            SendError::Clock => f.write_str("the time is above 2^62 ms"),
            SendError::NoServer => f.write_str("the router has no such Map-Server"),
            SendError::NoPart => f.write_str("the router's database has no such part"),
            SendError::NonceSpent => f.write_str("the router's nonces are spent"),
            SendError::OutOfMemory => f.write_str("out of memory"),
        }
    }
}

impl std::error::Error for SendError {}

/// Why a router refuses a datagram (docs/REFUSALS.md has their order). All is then as it was.
#[derive(Clone, Copy, Debug, PartialEq, Eq)]
pub enum Refusal {
    /// The buffer has no room for an answer.
    Room {
        /// How many bytes it needs: as many as the datagram has.
        needed: usize,
    },
    /// The datagram can't be read.
    Read {
        /// Why it can't.
        fault: Error,
    },
    /// Not a Map-Notify, or not from the address of a Map-Server of the router.
    NotMine,
    /// The Key ID is not the router's.
    WrongKey,
    /// The Authentication Data is wrong (RFC 9301 section 5.7).
    BadAuth,
    /// The nonce is below 2^63, and of no part that of the last Map-Register to that Map-Server.
    Stale,
    /// The library got no memory to read the datagram, or to answer a notice.
    OutOfMemory,
}

impl Refusal {
    /// The number of the refusal, as docs/REFUSALS.md and `lispd explain` have it.
    pub const fn number(self) -> u16 {
        match self {
            Refusal::Room { .. } => LISP_ROOM,
            Refusal::Read { .. } => LISP_ROUTER_READ,
            Refusal::NotMine => LISP_ROUTER_NOT_MINE,
            Refusal::WrongKey => LISP_WRONG_KEY,
            Refusal::BadAuth => LISP_ROUTER_BAD_AUTH,
            Refusal::Stale => LISP_STALE,
            Refusal::OutOfMemory => ROUTER_OUT_OF_MEMORY,
        }
    }

    /// The refusal of a number that carries nothing else; panics as `Error::of` does.
    pub(super) fn of(number: u16) -> Refusal {
        match number {
            LISP_ROUTER_NOT_MINE => Refusal::NotMine,
            LISP_WRONG_KEY => Refusal::WrongKey,
            LISP_ROUTER_BAD_AUTH => Refusal::BadAuth,
            LISP_STALE => Refusal::Stale,
            ROUTER_OUT_OF_MEMORY => Refusal::OutOfMemory,
            _ => unreachable!("liblisp_registration.a answered {number}"),
        }
    }
}

impl fmt::Display for Refusal {
    fn fmt(&self, f: &mut fmt::Formatter<'_>) -> fmt::Result {
        match self {
            Refusal::Room { needed } => write!(f, "the buffer has no room for {needed} bytes"),
            Refusal::Read { .. } => f.write_str("the datagram can't be read"),
            Refusal::NotMine => f.write_str("it is no Map-Notify from a Map-Server of the router"),
            Refusal::WrongKey => f.write_str("the Key ID is not the router's"),
            Refusal::BadAuth => f.write_str("the Authentication Data is wrong"),
            Refusal::Stale => f.write_str("the nonce is not that of a last Map-Register"),
            Refusal::OutOfMemory => f.write_str("out of memory"),
        }
    }
}

impl std::error::Error for Refusal {
    fn source(&self) -> Option<&(dyn std::error::Error + 'static)> {
        match self {
            Refusal::Read { fault } => Some(fault),
            _ => None,
        }
    }
}
