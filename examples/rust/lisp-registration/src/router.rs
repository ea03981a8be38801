//! A router's core (RFC 9301 sections 5.6, 5.7 and 8.2): what it registers, and when. Sockets, the clock and the store of nonces are
//! the program's.
//!
//! The program asks [`pair`] what the router's nonces are kept for, loads the last one, and passes it to [`Router::start`]. Then
//!
//! 1. while [`Router::due`] tells of a Map-Register, it has [`Router::send`] make it. Where that names a nonce, it **saves the nonce,
//!    so that no crash loses it, and only then sends the datagram**. Where the save fails it sends nothing, loads the nonce anew and
//!    starts the router anew, since it is open then which one is kept;
//! 2. it passes each datagram that comes to [`Router::receive`], and sends the reply, if there is one, to where it came from.
//!
//! Who sends first, or doesn't save, sends the same nonces again after a crash: Map-Servers refuse them as replays.
//!
//! ```
//! use lisp_registration::router::{pair, Router};
//! use lisp_registration::MESSAGE_ROOM;
//! # use lisp_registration::router::Pair;
//! # use std::net::IpAddr;
//! # fn load(_pair: &Pair) -> std::io::Result<Option<u64>> { Ok(None) }
//! # fn save(_pair: &Pair, _nonce: u64) -> std::io::Result<()> { Ok(()) }
//! # fn send(_to: IpAddr, _datagram: &[u8]) {}
//! # let configuration = include_str!("../../../worked.toml");
//! # let now_ms = 0;
//!
//! let pair = pair(configuration, "r1")?;
//! let mut router = Router::start(configuration, "r1", load(&pair)?, now_ms)?;
//! let mut buffer = [0; MESSAGE_ROOM];
//! while let Some(due) = router.due(now_ms) {
//!     let sent = router.send(due, now_ms, &mut buffer)?;
//!     if let Some(nonce) = sent.save {
//!         save(&pair, nonce)?; // where this fails the router is started anew
//!     }
//!     send(sent.to, sent.datagram);
//! }
//! # Ok::<(), Box<dyn std::error::Error>>(())
//! ```

mod error;

pub use crate::pair::Pair;
pub use crate::start_error::StartError;
pub use error::{Refusal, SendError};

use crate::datagram::Datagram;
use crate::pair::kept_to_raw;
use crate::reply::{EidPrefix, Reply, ReplyError};
use crate::{address, raw};
use lisp_registration_sys::{lisp_due, lisp_seen, lisp_sent, LISP_ROOM, LISP_ROUTER_READ};
use std::net::IpAddr;

/// A router: what it registers, its last nonce, and how it stands with its Map-Servers. It is stopped where it is dropped.
///
/// It stays on the thread that started it, and there is one of each:
///
/// ```compile_fail,E0277
/// fn sent<T: Send>() {}
/// sent::<lisp_registration::router::Router>();
/// ```
///
/// ```compile_fail,E0277
/// fn shared<T: Sync>() {}
/// shared::<lisp_registration::router::Router>();
/// ```
///
/// ```compile_fail,E0277
/// fn copied<T: Clone>() {}
/// copied::<lisp_registration::router::Router>();
/// ```
#[derive(Debug)]
pub struct Router {
    handle: raw::RouterHandle,
}

/// A Map-Register that a router has to send.
#[derive(Clone, Copy, Debug, PartialEq, Eq, Hash, PartialOrd, Ord)]
pub struct Due {
    /// To which of its Map-Servers, from 0 on, in the order of its configuration.
    pub server: usize,
    /// Which part of its database, from 0 on: a large one goes out in several Map-Registers.
    pub part: usize,
}

/// A Map-Register (RFC 9301 section 5.6) that is to be sent.
#[derive(Clone, Copy, Debug, PartialEq, Eq)]
#[must_use = "a nonce that is named must be saved before the datagram is sent"]
pub struct Sent<'a> {
    /// The nonce to save for the [`pair`] of the router before the datagram is sent; `None` where one that was saved before serves
    /// it too. One that is saved serves `nonce_block` datagrams (docs/CONFIGURATION.md), and is the last nonce of theirs.
    pub save: Option<u64>,
    /// Where to send it.
    pub to: IpAddr,
    /// The datagram.
    pub datagram: &'a [u8],
}

/// What a router took (RFC 9301 section 5.7). There is nothing to save.
#[derive(Clone, Copy, Debug, PartialEq, Eq)]
#[must_use = "a notice is to be answered"]
pub enum Seen<'a> {
    /// A Map-Notify acknowledges the router's last Map-Register of a part to a Map-Server.
    Acknowledged {
        /// The Map-Register, as [`Router::due`] told it. A database that was changed may no longer have the part.
        register: Due,
        /// Its nonce.
        nonce: u64,
    },
    /// A Map-Server tells unasked, by a Map-Notify, what it holds; [`Datagram`] reads what.
    Notice {
        /// Which Map-Server it is, as in [`Due`].
        server: usize,
        /// The nonce of the notice.
        nonce: u64,
        /// The Map-Notify-Ack to send to where the notice came from.
        reply: &'a [u8],
    },
}

impl Router {
    /// Starts a router of a configuration (docs/CONFIGURATION.md), by its name there, at a time, in ms. `kept` is the nonce that the
    /// program saved last for the [`pair`] of the router, or `None` if it never saved one. Something is due to all its Map-Servers.
    ///
    /// It is also the way back where a nonce can't be saved: over the nonce that is loaded then.
    ///
    /// # Errors
    ///
    /// Each [`StartError`].
    pub fn start(
        configuration: &str,
        name: &str,
        kept: Option<u64>,
        now_ms: u64,
    ) -> Result<Router, StartError> {
        let (configuration, name) = (configuration.as_bytes(), name.as_bytes());
        match raw::RouterHandle::start(configuration, name, &kept_to_raw(kept), now_ms) {
            Ok(handle) => Ok(Router { handle }),
            Err(number) => Err(StartError::of(number)),
        }
    }

    /// What the router has to send at a time, in ms: to the first of its Map-Servers to which something is due, the first part that
    /// is due there. Then [`Router::send`] is called. `None` where nothing is due.
    pub fn due(&mut self, now_ms: u64) -> Option<Due> {
        Due::from_raw(&self.handle.due(now_ms).expect("a Router holds a router"))
    }

    /// Makes a Map-Register at a time, in ms (RFC 9301 section 5.6), one that is due or another one. The buffer needs
    /// [`MESSAGE_ROOM`](crate::MESSAGE_ROOM) bytes.
    ///
    /// Where [`Sent::save`] is a nonce, the program saves it for the [`pair`] of the router, so that no crash loses it, and only then
    /// sends the datagram. Where the save fails it sends nothing, loads the nonce anew and starts the router anew. Who sends first,
    /// or doesn't save, sends the same nonces again after a crash: Map-Servers refuse them as replays.
    ///
    /// # Errors
    ///
    /// Each [`SendError`]; all is then as it was.
    pub fn send<'a>(
        &mut self,
        register: Due,
        now_ms: u64,
        buffer: &'a mut [u8],
    ) -> Result<Sent<'a>, SendError> {
        match self.handle.send(register.server, register.part, now_ms, buffer) {
            Ok(sent) => Ok(Sent::from_raw(&sent, buffer)),
            Err(number) => Err(SendError::of(number)),
        }
    }

    /// Receives a datagram that came from an address at a time, in ms: the acknowledgement of the last Map-Register of a part to a
    /// Map-Server, or a notice (RFC 9301 section 5.7). The buffer needs as much room as the datagram has bytes.
    ///
    /// # Errors
    ///
    /// Each [`Refusal`]; all is then as it was.
    pub fn receive<'a>(
        &mut self,
        from: IpAddr,
        datagram: &[u8],
        now_ms: u64,
        buffer: &'a mut [u8],
    ) -> Result<Seen<'a>, Refusal> {
        match self.handle.receive(&address::to_raw(from), datagram, now_ms, buffer) {
            Ok(seen) => Ok(Seen::from_raw(&seen, buffer)),
            Err(number) => Err(refusal(number, datagram)),
        }
    }

    /// What is sent for an EID-Prefix that a Map-Request with this nonce asks for, by the records that the router registers (RFC 9301
    /// sections 5.4, 5.5, 7.1 and 8.2): a Map-Reply, which answers a `probe` where the Map-Request is one. Each locator of the address
    /// that is `probed`, the router's own, has the probe bit. In [`MESSAGE_ROOM`](crate::MESSAGE_ROOM) bytes of the buffer there always
    /// is room for it.
    ///
    /// # Errors
    ///
    /// Each [`ReplyError`]; all is then as it was.
    pub fn reply<'a>(
        &mut self,
        eid: EidPrefix,
        nonce: u64,
        probe: bool,
        probed: Option<IpAddr>,
        buffer: &'a mut [u8],
    ) -> Result<Reply<'a>, ReplyError> {
        let probed = probed.map_or_else(address::none, address::to_raw);
        match self.handle.reply(&eid.to_raw(), nonce, probe, &probed, buffer) {
            Ok(replied) => Ok(Reply::from_raw(&replied, buffer)),
            Err(number) => Err(ReplyError::of(number)),
        }
    }

    /// Registers other records from a time on, in ms: those that a configuration has for a router's name. Something is due to all its
    /// Map-Servers; its key, its nonces and its Map-Servers stay.
    ///
    /// # Errors
    ///
    /// Each [`StartError`]; all is then as it was.
    pub fn change(
        &mut self,
        configuration: &str,
        name: &str,
        now_ms: u64,
    ) -> Result<(), StartError> {
        let (configuration, name) = (configuration.as_bytes(), name.as_bytes());
        self.handle.change(configuration, name, now_ms).map_err(StartError::of)
    }
}

/// What the nonces of a router are kept for, by a configuration and its name there: nonces that are sent. A Map-Server keeps nonces
/// that it received for the same pair: a program that is both keeps the two apart.
///
/// # Errors
///
/// Each [`StartError`].
pub fn pair(configuration: &str, name: &str) -> Result<Pair, StartError> {
    match raw::router_pair(configuration.as_bytes(), name.as_bytes()) {
        Ok(pair) => Ok(Pair::from_raw(&pair).expect("a router of a configuration has a pair")),
        Err(number) => Err(StartError::of(number)),
    }
}

impl Due {
    /// What the library told, if it told something.
    fn from_raw(raw: &lisp_due) -> Option<Due> {
        let &lisp_due { server, part, is_there } = raw;
        (is_there != 0).then_some(Due { server, part })
    }
}

impl<'a> Sent<'a> {
    /// The Map-Register that the library made at the start of the buffer.
    fn from_raw(raw: &lisp_sent, buffer: &'a [u8]) -> Sent<'a> {
        Sent {
            save: (raw.must_save != 0).then_some(raw.nonce),
            to: address::from_raw(&raw.to),
            datagram: &buffer[..raw.length],
        }
    }
}

impl<'a> Seen<'a> {
    /// What the library took; its answer is at the start of the buffer.
    fn from_raw(raw: &lisp_seen, buffer: &'a [u8]) -> Seen<'a> {
        let &lisp_seen { nonce, server, part, .. } = raw;
        if raw.is_notice == 0 {
            return Seen::Acknowledged { register: Due { server, part }, nonce };
        }
        Seen::Notice { server, nonce, reply: &buffer[..raw.reply_length] }
    }
}

/// The refusal of a number, with what it carries for that datagram.
fn refusal(number: u16, datagram: &[u8]) -> Refusal {
    match number {
        LISP_ROOM => Refusal::Room { needed: datagram.len() },
        LISP_ROUTER_READ => match Datagram::parse(datagram) {
            Err(fault) => Refusal::Read { fault },
            Ok(_) => unreachable!("liblisp_registration.a refused to read a message that it reads"),
        },
        _ => Refusal::of(number),
    }
}
