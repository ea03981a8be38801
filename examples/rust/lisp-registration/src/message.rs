//! Messages but their records.

use lisp_registration_sys::{
    lisp_message, LISP_MAP_NOTIFY, LISP_MAP_NOTIFY_ACK, LISP_MAP_REGISTER,
};
use std::fmt;

/// A message but its records (RFC 9301 sections 5.6 and 5.7).
#[derive(Clone, Copy, Debug, PartialEq, Eq, Hash)]
pub struct Message {
    /// Which message it is, and what a Map-Register alone has.
    pub kind: Kind,
    /// The nonce.
    pub nonce: u64,
    /// The Key ID: which secret the message is authenticated under.
    pub key_id: u8,
}

/// Types of messages (RFC 9301 section 5.1).
#[derive(Clone, Copy, Debug, PartialEq, Eq, Hash)]
pub enum Kind {
    /// A Map-Register (RFC 9301 section 5.6).
    MapRegister(Registration),
    /// A Map-Notify (RFC 9301 section 5.7).
    MapNotify,
    /// A Map-Notify-Ack (RFC 9301 section 5.7).
    MapNotifyAck,
}

/// What a Map-Register alone has (RFC 9301 section 5.6); by default all is zero and clear.
#[derive(Clone, Copy, Debug, Default, PartialEq, Eq, Hash)]
pub struct Registration {
    /// The xTR-ID: which router it is.
    pub xtr: [u8; 16],
    /// The Site-ID: which site the router is of.
    pub site: u64,
    /// P: the Map-Server is to answer Map-Requests.
    pub proxy: bool,
    /// S: the router is capable of LISP-SEC.
    pub sec: bool,
    /// E: dynamic EID discovery.
    pub eid_notify: bool,
    /// T: registrations time out by the TTL of their records.
    pub use_ttl: bool,
    /// a: the records are to be merged with those of other routers.
    pub merge: bool,
    /// M: a Map-Notify is wanted.
    pub want_notify: bool,
}

impl Kind {
    /// The number of the type.
    pub const fn number(&self) -> u8 {
        match self {
            Kind::MapRegister(_) => LISP_MAP_REGISTER,
            Kind::MapNotify => LISP_MAP_NOTIFY,
            Kind::MapNotifyAck => LISP_MAP_NOTIFY_ACK,
        }
    }
}

impl fmt::Display for Kind {
    fn fmt(&self, f: &mut fmt::Formatter<'_>) -> fmt::Result {
        f.write_str(match self {
            Kind::MapRegister(_) => "Map-Register",
            Kind::MapNotify => "Map-Notify",
            Kind::MapNotifyAck => "Map-Notify-Ack",
        })
    }
}

impl Message {
    /// The message as the library has it; what is read only is 0.
    pub(crate) fn to_raw(self) -> lisp_message {
        let registration = match self.kind {
            Kind::MapRegister(registration) => registration,
            Kind::MapNotify | Kind::MapNotifyAck => Registration::default(),
        };
        lisp_message {
            nonce: self.nonce,
            site: registration.site,
            xtr: registration.xtr,
            kind: self.kind.number(),
            key_id: self.key_id,
            proxy: registration.proxy.into(),
            sec: registration.sec.into(),
            eid_notify: registration.eid_notify.into(),
            use_ttl: registration.use_ttl.into(),
            merge: registration.merge.into(),
            want_notify: registration.want_notify.into(),
            ..lisp_message::default()
        }
    }

    /// A message that the library read: it is of one of three types.
    pub(crate) fn from_raw(raw: &lisp_message) -> Message {
        let kind = match raw.kind {
            LISP_MAP_REGISTER => Kind::MapRegister(Registration::from_raw(raw)),
            LISP_MAP_NOTIFY => Kind::MapNotify,
            LISP_MAP_NOTIFY_ACK => Kind::MapNotifyAck,
            kind => unreachable!("liblisp_registration.a read a message of type {kind}"),
        };
        Message { kind, nonce: raw.nonce, key_id: raw.key_id }
    }
}

impl Registration {
    fn from_raw(raw: &lisp_message) -> Registration {
        Registration {
            xtr: raw.xtr,
            site: raw.site,
            proxy: raw.proxy != 0,
            sec: raw.sec != 0,
            eid_notify: raw.eid_notify != 0,
            use_ttl: raw.use_ttl != 0,
            merge: raw.merge != 0,
            want_notify: raw.want_notify != 0,
        }
    }
}
