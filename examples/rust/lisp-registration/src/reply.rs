//! What is sent for an EID-Prefix that a Map-Request asks for.

use crate::address;
use lisp_registration_sys::*;
use std::fmt;
use std::net::IpAddr;

/// An EID-Prefix that a Map-Request asks for (RFC 9301 section 5.2).
#[derive(Clone, Copy, Debug, PartialEq, Eq, Hash)]
pub struct EidPrefix {
    /// Its first address. Bits past the mask aren't looked at.
    pub address: IpAddr,
    /// The EID mask-len: how many bits its addresses share, 0 to 32 or 128.
    pub mask_len: u8,
}

/// What is sent for an EID-Prefix that a Map-Request asks for (RFC 9301 sections 5.4, 8.2 and 8.3).
#[derive(Clone, Copy, Debug, PartialEq, Eq)]
pub enum Reply<'a> {
    /// This Map-Reply, with records.
    Records(&'a [u8]),
    /// This negative Map-Reply: nobody is in its prefix.
    Negative(&'a [u8]),
    /// The Map-Request itself, as it came, goes on to the router at this address, UDP port 4342. By a Map-Server alone.
    Forward(IpAddr),
    /// Nothing: the Map-Server has just started, and the ITR asks again. By a Map-Server alone.
    Silent,
}

impl EidPrefix {
    /// The EID-Prefix as the library has it.
    pub(crate) fn to_raw(self) -> lisp_prefix {
        lisp_prefix { mask_len: self.mask_len, address: address::to_raw(self.address) }
    }
}

impl<'a> Reply<'a> {
    /// What the library told; a Map-Reply is at the start of the buffer.
    pub(crate) fn from_raw(raw: &lisp_replied, buffer: &'a [u8]) -> Reply<'a> {
        let datagram = &buffer[..raw.length];
        match raw.kind {
            LISP_REPLIED_RECORDS => Reply::Records(datagram),
            LISP_REPLIED_NEGATIVE => Reply::Negative(datagram),
            LISP_REPLIED_FORWARD => Reply::Forward(address::from_raw(&raw.to)),
            LISP_REPLIED_SILENT => Reply::Silent,
            kind => unreachable!("liblisp_registration.a told a reply of kind {kind}"),
        }
    }
}

/// Why nothing is told of an EID-Prefix. All is then as it was.
#[derive(Clone, Copy, Debug, PartialEq, Eq)]
pub enum ReplyError {
    /// The buffer has no room for the Map-Reply; [`MESSAGE_ROOM`](crate::MESSAGE_ROOM) bytes always have.
    Room,
    /// The mask of the EID-Prefix is longer than its address.
    Field,
    /// The library got no memory for the Map-Reply.
    OutOfMemory,
}

impl ReplyError {
    /// The number of the fault, as docs/REFUSALS.md and `lispd explain` have it.
    pub const fn number(self) -> u16 {
        match self {
            ReplyError::Room => LISP_ROOM,
            ReplyError::Field => LISP_FIELD,
            ReplyError::OutOfMemory => LISP_OUT_OF_MEMORY,
        }
    }

    /// The fault of a number; panics as `Error::of` does.
    pub(crate) fn of(number: u16) -> ReplyError {
        match number {
            LISP_ROOM => ReplyError::Room,
            LISP_FIELD => ReplyError::Field,
            LISP_OUT_OF_MEMORY => ReplyError::OutOfMemory,
            _ => unreachable!("liblisp_registration.a answered {number}"),
        }
    }
}

impl fmt::Display for ReplyError {
    fn fmt(&self, f: &mut fmt::Formatter<'_>) -> fmt::Result {
        f.write_str(match self {
            ReplyError::Room => "the buffer has no room for the Map-Reply",
            ReplyError::Field => "the EID mask is longer than its address",
            ReplyError::OutOfMemory => "out of memory",
        })
    }
}

impl std::error::Error for ReplyError {}
