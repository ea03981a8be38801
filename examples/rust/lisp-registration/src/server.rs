//! A Map-Server's core (RFC 9301 section 8.2). Sockets, the clock and the store of nonces are the program's.
//!
//! For each datagram the program
//!
//! 1. asks [`pair`] whose last nonce is needed, and loads that nonce from its store;
//! 2. passes it to [`MapServer::receive`] with the datagram;
//! 3. where that is [`Received::Accepted`], **saves `nonce` for `pair`, so that no crash loses it, and only then sends `reply`**
//!    to where the datagram came from. Where the save fails it sends nothing and calls [`MapServer::restart`], since it is open
//!    then whether the nonce is kept.
//!
//! Who sends first, or doesn't save, loses what is promised: after a crash the same Map-Register is accepted again, so that
//! whoever recorded it can bring an old mapping back.
//!
//! From time to time it calls [`MapServer::expire`], so that dead rows take no memory, and while [`MapServer::due`] names a router
//! it sends what [`MapServer::resend`] gives. [`MapServer::rows`] and [`MapServer::answer`] tell what is held.
//!
//! ```
//! use lisp_registration::server::{pair, MapServer, Received};
//! # use lisp_registration::server::Pair;
//! # use std::{error::Error, net::IpAddr};
//! # fn load(_pair: &Pair) -> std::io::Result<Option<u64>> { Ok(None) }
//! # fn save(_pair: &Pair, _nonce: u64) -> std::io::Result<()> { Ok(()) }
//!
//! /// One datagram's way: the answer to send to where it came from, if there is one.
//! fn answer<'a>(
//!     server: &mut MapServer,
//!     from: IpAddr,
//!     datagram: &[u8],
//!     now_ms: u64,
//!     buffer: &'a mut [u8],
//! ) -> Result<Option<&'a [u8]>, Box<dyn Error>> {
//!     let kept = match pair(datagram) {
//!         Some(pair) => load(&pair)?,
//!         None => None,
//!     };
//!     match server.receive(kept, from, datagram, now_ms, buffer)? {
//!         Received::Accepted { pair, nonce, reply } => match save(&pair, nonce) {
//!             Ok(()) => Ok(reply),
//!             Err(fault) => {
//!                 server.restart(); // whether the nonce is kept is open
//!                 Err(fault.into())
//!             }
//!         },
//!         Received::NoticeDone { .. } => Ok(None),
//!     }
//! }
//! ```

mod answer;
mod notice;
mod refusal;
mod row;

pub use crate::clock_error::ClockError;
pub use crate::pair::{Pair, RouterId};
pub use crate::start_error::StartError;
pub use answer::Answer;
pub use notice::{Notice, NoticeError, Resent};
pub use refusal::Refusal;
pub use row::{Row, Rows};

use crate::datagram::Datagram;
use crate::pair::kept_to_raw;
use crate::reply::{EidPrefix, Reply, ReplyError};
use crate::{address, raw};
use lisp_registration_sys::{lisp_received, LISP_CLOCK, LISP_READ, LISP_ROOM};
use std::net::IpAddr;

/// What holds of each handle here.
const HOLDS: &str = "a MapServer holds a Map-Server";
/// What holds of each room for locators here.
const ROOM: &str = "a MapServer holds a Map-Server, and there is room for all locators";

/// A Map-Server: the sites that it serves, the rows that it holds, and the last nonces that it accepted since its start. It is
/// stopped where it is dropped.
///
/// It stays on the thread that started it, and there is one of each:
///
/// ```compile_fail,E0277
/// fn sent<T: Send>() {}
/// sent::<lisp_registration::server::MapServer>();
/// ```
///
/// ```compile_fail,E0277
/// fn shared<T: Sync>() {}
/// shared::<lisp_registration::server::MapServer>();
/// ```
///
/// ```compile_fail,E0277
/// fn copied<T: Clone>() {}
/// copied::<lisp_registration::server::MapServer>();
/// ```
#[derive(Debug)]
pub struct MapServer {
    handle: raw::ServerHandle,
}

/// What a Map-Server took.
#[derive(Clone, Copy, Debug, PartialEq, Eq)]
#[must_use = "an accepted nonce must be saved before the reply is sent"]
pub enum Received<'a> {
    /// A Map-Register (RFC 9301 section 5.6) was accepted. Its nonce must be saved before the reply is sent; where the save
    /// fails nothing is sent, and [`MapServer::restart`] is called.
    Accepted {
        /// What the nonce is to be saved for.
        pair: Pair,
        /// The nonce.
        nonce: u64,
        /// The Map-Notify (RFC 9301 section 5.7) to send to where the datagram came from, if one was asked for.
        reply: Option<&'a [u8]>,
    },
    /// A Map-Notify-Ack (RFC 9301 section 5.7) ended a notice. There is nothing to save or to send.
    NoticeDone {
        /// The Site-ID of the router.
        site: u64,
        /// Its xTR-ID.
        xtr: [u8; 16],
        /// The nonce of the notice.
        nonce: u64,
    },
}

impl MapServer {
    /// Starts a Map-Server of the sites of a configuration (docs/CONFIGURATION.md). It holds no rows yet.
    ///
    /// # Errors
    ///
    /// Each [`StartError`] but [`StartError::NoRouter`].
    pub fn start(configuration: &str) -> Result<MapServer, StartError> {
        let handle = raw::ServerHandle::start(configuration.as_bytes()).map_err(StartError::of)?;
        Ok(MapServer { handle })
    }

    /// Starts the Map-Server again, as after a crash: its rows and its nonces are gone, its sites stay. Its routers come back with
    /// their next Map-Registers. To be called where an accepted nonce can't be saved.
    pub fn restart(&mut self) {
        self.handle.restart().expect(HOLDS);
    }

    /// Takes the sites of a configuration in place of its own; of the configuration only the sites are taken. Where these have all
    /// that its own have (each site with its keys, their secrets and its prefixes, under limits that are as wide), the Map-Server
    /// goes on with its rows, its last nonces and its notices, and the answer is true. Else it starts anew, as by
    /// [`MapServer::restart`], and the answer is false: it is `starting` then for another minute ([`MapServer::reply`]). Nothing is
    /// to be saved.
    ///
    /// # Errors
    ///
    /// Each [`StartError`] but [`StartError::NoRouter`]; all is then as it was.
    pub fn reload(&mut self, configuration: &str) -> Result<bool, StartError> {
        self.handle.reload(configuration.as_bytes()).map_err(StartError::of)
    }

    /// Receives a datagram that came from an address at a time, in ms, which must not go back (RFC 9301 section 8.2). `kept` is
    /// the nonce that the program saved last for the [`pair`] of the datagram, or `None` if it never saved one. The buffer needs
    /// as much room as the datagram has bytes.
    ///
    /// At [`Received::Accepted`] the program saves the nonce for the pair, so that no crash loses it, and only then sends the
    /// reply. Where the save fails it sends nothing and calls [`MapServer::restart`]. Who sends first, or doesn't save, loses what
    /// is promised: after a crash the same Map-Register is accepted again, so that whoever recorded it can bring an old mapping
    /// back.
    ///
    /// # Errors
    ///
    /// Each [`Refusal`]; all is then as it was.
    pub fn receive<'a>(
        &mut self,
        kept: Option<u64>,
        from: IpAddr,
        datagram: &[u8],
        now_ms: u64,
        buffer: &'a mut [u8],
    ) -> Result<Received<'a>, Refusal> {
        let from = address::to_raw(from);
        match self.handle.receive(&kept_to_raw(kept), &from, datagram, now_ms, buffer) {
            Ok(received) => Ok(Received::from_raw(&received, buffer)),
            Err(number) => Err(refusal(number, datagram)),
        }
    }

    /// Drops the rows that are dead at a time, in ms: they outlived their lifetime. Without it they stay in memory, though nothing
    /// below tells them.
    ///
    /// # Errors
    ///
    /// [`ClockError`] for a time above 2^62 ms; all is then as it was.
    pub fn expire(&mut self, now_ms: u64) -> Result<(), ClockError> {
        self.handle.expire(now_ms).map_err(|number| match number {
            LISP_CLOCK => ClockError,
            _ => unreachable!("liblisp_registration.a answered {number}"),
        })
    }

    /// The rows that are alive at a time, in ms, each once (RFC 9301 section 8.2). The library takes no memory for them.
    pub fn rows(&mut self, now_ms: u64) -> Rows<'_> {
        Rows::new(self, now_ms)
    }

    /// Who answers for an address at a time, in ms, by the rows that are alive then (RFC 9301 section 8.3; docs/PROTOCOL.md has the
    /// order of several). The library takes no memory for it.
    pub fn answer(&mut self, address: IpAddr, now_ms: u64) -> Answer {
        let mut locators = row::room_for_locators();
        let answer = self.handle.answer(&address::to_raw(address), now_ms, &mut locators);
        Answer::from_raw(&answer.expect(ROOM), &locators)
    }

    /// What is sent for an EID-Prefix that a Map-Request with this nonce asks for, at a time, in ms, by the rows that are alive then (RFC
    /// 9301 sections 5.4, 5.5, 8.3 and 8.4). It is `starting` in the first minute of the program's life: rows may not have come back yet.
    /// A Map-Reply goes to the ITR-RLOC that the Map-Request names and to its UDP source port: to none that the program doesn't expect
    /// there. In [`MESSAGE_ROOM`](crate::MESSAGE_ROOM) bytes of the buffer there always is room for it.
    ///
    /// # Errors
    ///
    /// Each [`ReplyError`]; all is then as it was.
    pub fn reply<'a>(
        &mut self,
        eid: EidPrefix,
        nonce: u64,
        starting: bool,
        now_ms: u64,
        buffer: &'a mut [u8],
    ) -> Result<Reply<'a>, ReplyError> {
        match self.handle.reply(&eid.to_raw(), nonce, starting, now_ms, buffer) {
            Ok(replied) => Ok(Reply::from_raw(&replied, buffer)),
            Err(number) => Err(ReplyError::of(number)),
        }
    }

    /// Makes a notice for a router: a Map-Notify of the records of it that are alive at a time, in ms (RFC 9301 section 5.7). `kept`
    /// is the nonce that the program saved last for a notice of this Map-Server, to whichever router, or `None` if it never saved
    /// one; it is kept apart from those of pairs. The buffer needs [`MESSAGE_ROOM`](crate::MESSAGE_ROOM) bytes.
    ///
    /// The program saves the nonce, so that no crash loses it, and only then sends the datagram. Where the save fails it sends
    /// nothing and calls [`MapServer::restart`]. Who sends first, or doesn't save, may send two notices under one nonce, so that the
    /// acknowledgement of one ends the other.
    ///
    /// The notice stands until its acknowledgement is received, and is due again meanwhile ([`MapServer::due`]). It takes the place
    /// of one to that router that still stands.
    ///
    /// # Errors
    ///
    /// Each [`NoticeError`] but [`NoticeError::NotDue`]; all is then as it was.
    pub fn notify<'a>(
        &mut self,
        kept: Option<u64>,
        router: RouterId,
        now_ms: u64,
        buffer: &'a mut [u8],
    ) -> Result<Notice<'a>, NoticeError> {
        match self.handle.notify(&kept_to_raw(kept), &router.to_raw(), now_ms, buffer) {
            Ok(notice) => Ok(Notice::from_raw(&notice, buffer)),
            Err(number) => Err(NoticeError::of(number)),
        }
    }

    /// The least router, by Site-ID, then xTR-ID, to which a notice is due again at a time, in ms: 3, 3, 3, 6, 12 and 24 s after it
    /// was last sent. Then [`MapServer::resend`] is called. `None` where none is due.
    pub fn due(&mut self, now_ms: u64) -> Option<RouterId> {
        RouterId::from_raw(&self.handle.due(now_ms).expect(HOLDS))
    }

    /// Sends a router again the notice that is due at a time, in ms: the same datagram, with nothing to save (RFC 9301 section 5.7).
    /// The buffer needs [`MESSAGE_ROOM`](crate::MESSAGE_ROOM) bytes.
    ///
    /// # Errors
    ///
    /// [`NoticeError::Room`], [`NoticeError::Clock`], [`NoticeError::NotDue`] or [`NoticeError::OutOfMemory`]; the notice is then as
    /// due as it was.
    pub fn resend<'a>(
        &mut self,
        router: RouterId,
        now_ms: u64,
        buffer: &'a mut [u8],
    ) -> Result<Resent<'a>, NoticeError> {
        match self.handle.resend(&router.to_raw(), now_ms, buffer) {
            Ok(notice) => Ok(Resent::from_raw(&notice, buffer)),
            Err(number) => Err(NoticeError::of(number)),
        }
    }
}

/// The pair whose last nonce a datagram needs: of a Map-Register its router and its Key ID; none of all other bytes. Nothing is
/// checked yet: anyone may have sent it.
#[must_use]
pub fn pair(datagram: &[u8]) -> Option<Pair> {
    Pair::from_raw(&raw::pair(datagram))
}

impl<'a> Received<'a> {
    /// What the library took; its answer is at the start of the buffer.
    fn from_raw(raw: &lisp_received, buffer: &'a [u8]) -> Received<'a> {
        let &lisp_received { nonce, site, xtr, key_id, .. } = raw;
        if raw.accepted == 0 {
            return Received::NoticeDone { site, xtr, nonce };
        }
        let reply = (raw.reply_length > 0).then(|| &buffer[..raw.reply_length]);
        Received::Accepted { pair: Pair { site, xtr, key_id }, nonce, reply }
    }
}

/// The refusal of a number, with what it carries for that datagram.
fn refusal(number: u16, datagram: &[u8]) -> Refusal {
    match number {
        LISP_ROOM => Refusal::Room { needed: datagram.len() },
        LISP_READ => match Datagram::parse(datagram) {
            Err(fault) => Refusal::Read { fault },
            Ok(_) => unreachable!("liblisp_registration.a refused to read a message that it reads"),
        },
        _ => Refusal::of(number),
    }
}
