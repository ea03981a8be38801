//! LISP registration messages (RFC 9301): Map-Register, Map-Notify and Map-Notify-Ack.
//!
//! The work is done by liblisp_registration.a, whose functions are proved. This crate gives them Rust's types: a [`Datagram`]
//! borrows the bytes that it was read from, its records and locators are iterators over them, and [`write()`] makes the
//! datagram of a [`Message`] and its records. A Map-Server's core is in [`server`], and a router's in [`router`]. Only `raw` has
//! unsafe code.
//!
//! ```
//! use lisp_registration::{write, Datagram, Kind, Message};
//!
//! let message = Message { kind: Kind::MapNotify, nonce: 7, key_id: 1 };
//! let bytes = write(&message, &[], b"secret")?;
//! let datagram = Datagram::parse(&bytes)?;
//! assert!(datagram.is_authentic(b"secret"));
//! assert_eq!(datagram.message(), message);
//! # Ok::<(), lisp_registration::Error>(())
//! ```
#![deny(unsafe_code)]

mod address;
mod clock_error;
mod datagram;
mod error;
mod message;
mod pair;
#[allow(unsafe_code)]
mod raw;
mod record;
mod reply;
pub mod router;
pub mod server;
mod start_error;
mod tag;
mod writing;

pub use datagram::{Datagram, Locators, RecordLayout, Records};
pub use error::{Error, RecordFault};
pub use message::{Kind, Message, Registration};
pub use record::{Locator, Record, RecordWithLocators};
pub use reply::{EidPrefix, Reply, ReplyError};
pub use tag::{is_authentic, sign};
pub use writing::{write, write_into};

/// The room that a buffer needs for any datagram that a Map-Server or a router sends by itself, in bytes.
pub const MESSAGE_ROOM: usize = lisp_registration_sys::LISP_MESSAGE_ROOM;
