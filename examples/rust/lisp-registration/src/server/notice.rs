//! Notices: Map-Notifies that a Map-Server sends unasked.

use crate::address;
use lisp_registration_sys::*;
use std::fmt;
use std::net::IpAddr;

/// The number of no memory for a notice, which the header has no name for.
const NOTICE_OUT_OF_MEMORY: u16 = 66;

/// A notice: a Map-Notify for a router that it didn't ask for (RFC 9301 section 5.7). Its nonce must be saved before it is sent;
/// where the save fails nothing is sent, and [`MapServer::restart`](super::MapServer::restart) is called.
#[derive(Clone, Copy, Debug, PartialEq, Eq)]
#[must_use = "the nonce must be saved before the notice is sent"]
pub struct Notice<'a> {
    /// The nonce, which is saved for all notices of this Map-Server.
    pub nonce: u64,
    /// Where to send it.
    pub to: IpAddr,
    /// The datagram.
    pub datagram: &'a [u8],
}

/// A notice that is sent again. There is nothing to save.
#[derive(Clone, Copy, Debug, PartialEq, Eq)]
#[must_use = "the notice counts as sent"]
pub struct Resent<'a> {
    /// Where to send it.
    pub to: IpAddr,
    /// The datagram.
    pub datagram: &'a [u8],
}

impl<'a> Notice<'a> {
    /// A notice that the library made at the start of the buffer.
    pub(super) fn from_raw(raw: &lisp_notice, buffer: &'a [u8]) -> Notice<'a> {
        let Resent { to, datagram } = Resent::from_raw(raw, buffer);
        Notice { nonce: raw.nonce, to, datagram }
    }
}

impl<'a> Resent<'a> {
    /// A notice that the library put at the start of the buffer.
    pub(super) fn from_raw(raw: &lisp_notice, buffer: &'a [u8]) -> Resent<'a> {
        Resent { to: address::from_raw(&raw.to), datagram: &buffer[..raw.length] }
    }
}

/// Why a Map-Server makes no notice, or sends none again. All is then as it was.
#[derive(Clone, Copy, Debug, PartialEq, Eq)]
pub enum NoticeError {
    /// The buffer has no room for any notice.
    Room {
        /// How many bytes it needs, which are [`MESSAGE_ROOM`](crate::MESSAGE_ROOM).
        needed: usize,
    },
    /// The time is above 2^62 ms.
    Clock,
    /// No record of the router is alive: there is nothing to notify it of.
    NotRegistered,
    /// The live records of the router are more than 255, or have more than 16,384 bytes.
    TooLarge,
    /// The last nonce of the notices is 2^64 - 1: the Map-Server can make no more of them.
    NonceSpent,
    /// No notice of the router is due. Of a notice that is sent again alone.
    NotDue,
    /// The library got no memory for the notice.
    OutOfMemory,
}

impl NoticeError {
    /// The number of the fault, as docs/REFUSALS.md and `lispd explain` have it.
    pub const fn number(self) -> u16 {
        match self {
            NoticeError::Room { .. } => LISP_ROOM,
            NoticeError::Clock => LISP_CLOCK,
            NoticeError::NotRegistered => LISP_NOT_REGISTERED,
            NoticeError::TooLarge => LISP_TOO_LARGE,
            NoticeError::NonceSpent => LISP_NONCE_SPENT,
            NoticeError::NotDue => LISP_NOT_DUE,
            NoticeError::OutOfMemory => NOTICE_OUT_OF_MEMORY,
        }
    }

    /// The fault of a number; panics as `Error::of` does.
    pub(super) fn of(number: u16) -> NoticeError {
        match number {
            LISP_ROOM => NoticeError::Room { needed: LISP_MESSAGE_ROOM },
            LISP_CLOCK => NoticeError::Clock,
            LISP_NOT_REGISTERED => NoticeError::NotRegistered,
            LISP_TOO_LARGE => NoticeError::TooLarge,
            LISP_NONCE_SPENT => NoticeError::NonceSpent,
            LISP_NOT_DUE => NoticeError::NotDue,
            NOTICE_OUT_OF_MEMORY => NoticeError::OutOfMemory,
            _ => unreachable!("liblisp_registration.a answered {number}"),
        }
    }
}

impl fmt::Display for NoticeError {
    fn fmt(&self, f: &mut fmt::Formatter<'_>) -> fmt::Result {
        match self {
            NoticeError::Room { needed } => write!(f, "the buffer needs room for {needed} bytes"),
            NoticeError::Clock => f.write_str("the time is above 2^62 ms"),
            NoticeError::NotRegistered => f.write_str("no record of the router is alive"),
            NoticeError::TooLarge => {
                f.write_str("the router's records are too many, or too long, for one message")
            }
            NoticeError::NonceSpent => f.write_str("the nonces of the notices are spent"),
            NoticeError::NotDue => f.write_str("no notice of the router is due"),
            NoticeError::OutOfMemory => f.write_str("out of memory"),
        }
    }
}

impl std::error::Error for NoticeError {}
