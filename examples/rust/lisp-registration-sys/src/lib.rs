//! The structs, numbers and functions of liblisp_registration.a: LISP registration messages, Map-Requests and Map-Replies (RFC 9301),
//! read and written, and the cores of a Map-Server and of a router.
//!
//! Names are those of `include/lisp_registration.h`, which says what each function does and in what order its faults come.
//! The crate `lisp-registration` is a safe layer over this one.
//!
//! # Safety
//!
//! The same holds for each function:
//!
//! - a pointer is not null and is aligned, also where its length or count is 0;
//! - it is to so many bytes or structs as the length or count behind it says, of no more than `isize::MAX` bytes;
//! - what a function writes overlaps nothing else that it is given;
//! - a [`lisp_server`] or a [`lisp_router`] is zeros at first, isn't copied, is changed by these functions alone, and stays on one
//!   thread.
//!
//! Structs and lengths that are only written need no value before.
#![allow(non_camel_case_types)]

use std::ffi::c_void;
use std::ptr::null_mut;

/// Done: no fault.
pub const LISP_DONE: u16 = 0;
/// The bytes end before the message, the record or the locator does.
pub const LISP_SHORT: u16 = 1;
/// An address family that is neither IPv4 nor IPv6.
pub const LISP_AFI: u16 = 2;
/// An EID mask longer than its address.
pub const LISP_MASK: u16 = 3;
/// A type other than 3, 4 and 5.
pub const LISP_KIND: u16 = 10;
/// An Algorithm ID other than 2, HMAC-SHA-256-128-None.
pub const LISP_ALGORITHM: u16 = 11;
/// An Authentication Data Length other than 16.
pub const LISP_AUTH_LENGTH: u16 = 12;
/// A Map-Register with bit I clear: it has no xTR-ID and Site-ID.
pub const LISP_NO_IDS: u16 = 13;
/// Bytes after the end of the message.
pub const LISP_TRAILING: u16 = 14;
/// A record that can't be read: [`lisp_registration_read_record`] says which one and why.
pub const LISP_RECORD: u16 = 15;
/// A configuration that is not valid TOML.
pub const LISP_TOML: u16 = 20;
/// A field of a configuration is absent, and has no default.
pub const LISP_MISSING: u16 = 21;
/// A value of a configuration is of another type or form, out of its range, or names what isn't there.
pub const LISP_BAD_VALUE: u16 = 22;
/// Two entries of a configuration are alike where no two may be.
pub const LISP_REPEATED: u16 = 23;
/// The router has no Map-Server with that number.
pub const LISP_NO_SERVER: u16 = 40;
/// The router's last nonce is 2^63 - 1 or more: it needs a new key.
pub const LISP_ROUTER_NONCE_SPENT: u16 = 41;
/// A datagram for a router that can't be read: [`lisp_registration_read_message`] says why.
pub const LISP_ROUTER_READ: u16 = 43;
/// Not a Map-Notify, or not from the address of a Map-Server of the router.
pub const LISP_ROUTER_NOT_MINE: u16 = 44;
/// The Key ID is not the router's.
pub const LISP_WRONG_KEY: u16 = 45;
/// The Authentication Data is wrong under the router's secret.
pub const LISP_ROUTER_BAD_AUTH: u16 = 46;
/// The nonce is below 2^63, and of no part the last one to that Map-Server.
pub const LISP_STALE: u16 = 47;
/// The router's database has no such part.
pub const LISP_NO_PART: u16 = 49;
/// A datagram for a Map-Server that can't be read: [`lisp_registration_read_message`] says why.
pub const LISP_READ: u16 = 50;
/// No such Site-ID is configured.
pub const LISP_UNKNOWN_SITE: u16 = 51;
/// The site has no secret for the Key ID.
pub const LISP_UNKNOWN_KEY: u16 = 52;
/// The Authentication Data is wrong.
pub const LISP_BAD_AUTH: u16 = 53;
/// The merge bit is set.
pub const LISP_MERGE_ASKED: u16 = 54;
/// A record's prefix is not one that the site may register.
pub const LISP_NOT_ALLOWED: u16 = 55;
/// The nonce is not above the last one of that router under that key.
pub const LISP_REPLAY: u16 = 57;
/// The site lists its routers, and this one isn't among them.
pub const LISP_ROUTER: u16 = 69;
/// The site lists source addresses, and the datagram's isn't among them.
pub const LISP_SOURCE: u16 = 136;
/// A record would live for a TTL that the site doesn't let it have.
pub const LISP_TTL: u16 = 137;
/// The nonce is further above the last one than the site lets it jump.
pub const LISP_JUMP: u16 = 138;
/// As many routers of the site have live rows as may, and this one would be another.
pub const LISP_ROUTERS: u16 = 139;
/// The site would have more live rows than it may.
pub const LISP_ROWS: u16 = 140;
/// A Map-Notify-Ack that no notice waits for.
pub const LISP_NO_NOTICE: u16 = 60;
/// A Map-Notify, which is for routers.
pub const LISP_NOT_MINE: u16 = 61;
/// No record of the router is alive.
pub const LISP_NOT_REGISTERED: u16 = 62;
/// The live records of a router are more than 255, or have more than 16,384 bytes.
pub const LISP_TOO_LARGE: u16 = 63;
/// The last nonce of the notices is 2^64 - 1.
pub const LISP_NONCE_SPENT: u16 = 64;
/// No notice of the router is due.
pub const LISP_NOT_DUE: u16 = 67;
/// A time above 2^62 ms.
pub const LISP_CLOCK: u16 = 73;
/// A configuration that is not UTF-8.
pub const LISP_NOT_UTF8: u16 = 95;
/// A handle holds nothing; or a pointer is null, which only the inline functions of the C header answer.
pub const LISP_NULL: u16 = 100;
/// A length or a count is more than memory can have. Only the inline functions of the C header answer this.
pub const LISP_LENGTH: u16 = 101;
/// The buffer has no room.
pub const LISP_ROOM: u16 = 102;
/// A field has no place in a message.
pub const LISP_FIELD: u16 = 103;
/// So many records, locators, ITR-RLOCs or EID-Prefixes have no place in a message.
pub const LISP_COUNTS: u16 = 104;
/// `malloc` or `realloc` gave no memory. So say 24 of a configuration, 48 of a router, 58 of a datagram for a Map-Server, and 66 of a
/// notice.
pub const LISP_OUT_OF_MEMORY: u16 = 105;
/// No router of the configuration has the name.
pub const LISP_NO_ROUTER: u16 = 106;
/// The bytes end before the Map-Request, the Map-Reply or a part of it does.
pub const LISP_REQUEST_SHORT: u16 = 110;
/// Another type than the one that is read: 1, 2 or 8.
pub const LISP_REQUEST_KIND: u16 = 111;
/// An encapsulated message with an authentication header (S).
pub const LISP_SECURITY: u16 = 112;
/// An inner IP header of another version than 4 and 6.
pub const LISP_IP_VERSION: u16 = 113;
/// An inner IPv4 header of fewer than 20 bytes.
pub const LISP_IP_HEADER_LENGTH: u16 = 114;
/// An inner IP length that its header doesn't fit, or above what is there.
pub const LISP_IP_LENGTH: u16 = 115;
/// An inner IP datagram that is a fragment.
pub const LISP_FRAGMENT: u16 = 116;
/// An inner IP datagram that carries no UDP.
pub const LISP_PROTOCOL: u16 = 117;
/// An inner IPv4 header with a wrong checksum.
pub const LISP_IP_CHECKSUM: u16 = 118;
/// An inner UDP destination port other than 4342.
pub const LISP_PORT: u16 = 119;
/// An inner UDP length below 8, or more than what is there.
pub const LISP_UDP_LENGTH: u16 = 120;
/// An inner UDP datagram with a wrong checksum; over IPv6 also with none.
pub const LISP_UDP_CHECKSUM: u16 = 121;
/// A Map-Request without a record.
pub const LISP_NO_RECORD: u16 = 122;
/// An address family that is neither IPv4 nor IPv6, nor 0 for the Source EID.
pub const LISP_REQUEST_AFI: u16 = 123;
/// An EID mask longer than its address.
pub const LISP_REQUEST_MASK: u16 = 124;
/// Bytes after the records of a Map-Reply.
pub const LISP_REQUEST_TRAILING: u16 = 125;

/// Type of a Map-Register (RFC 9301 section 5.6).
pub const LISP_MAP_REGISTER: u8 = 3;
/// Type of a Map-Notify (RFC 9301 section 5.7).
pub const LISP_MAP_NOTIFY: u8 = 4;
/// Type of a Map-Notify-Ack (RFC 9301 section 5.7).
pub const LISP_MAP_NOTIFY_ACK: u8 = 5;

/// Address family of IPv4, as AFI fields name it.
pub const LISP_IPV4: u16 = 1;
/// Address family of IPv6, as AFI fields name it.
pub const LISP_IPV6: u16 = 2;

/// Where the first record of each message begins.
pub const LISP_RECORDS_AT: usize = 32;
/// Where the first record of a Map-Reply begins.
pub const LISP_REPLY_RECORDS_AT: usize = 12;

/// The most ITR-RLOCs of a Map-Request (RFC 9301 section 5.2).
pub const LISP_ITR_RLOCS: usize = 32;
/// The most EID-Prefixes of a Map-Request (RFC 9301 section 5.2).
pub const LISP_EIDS: usize = 255;

/// Room for the locators of any record.
pub const LISP_LOCATORS: usize = 255;
/// Room for the bytes of any datagram that a Map-Server or a router sends by itself.
pub const LISP_MESSAGE_ROOM: usize = 16_440;

/// Nobody answers for the address, and no site has it: negative, for 15 minutes (RFC 9301 section 8.3).
pub const LISP_ANSWER_NO_SITE: u8 = 0;
/// Nobody answers for the address, though a site has it: negative, for 1 minute (RFC 9301 section 8.3).
pub const LISP_ANSWER_NOT_REGISTERED: u8 = 1;
/// The Map-Server answers, with a record: its router asked for proxy replies (RFC 9301 section 8.3).
pub const LISP_ANSWER_REPLY: u8 = 2;
/// The router answers: the Map-Request is forwarded to it (RFC 9301 section 8.3).
pub const LISP_ANSWER_FORWARD: u8 = 3;
/// A Map-Reply with records is sent for an EID-Prefix that a Map-Request asks for (RFC 9301 section 5.4).
pub const LISP_REPLIED_RECORDS: u8 = 0;
/// A negative Map-Reply is sent: nobody is in its prefix (RFC 9301 section 8.3).
pub const LISP_REPLIED_NEGATIVE: u8 = 1;
/// The Map-Request itself goes on to a router, as it came (RFC 9301 section 8.3).
pub const LISP_REPLIED_FORWARD: u8 = 2;
/// Nothing is sent: the Map-Server has just started, and the ITR asks again.
pub const LISP_REPLIED_SILENT: u8 = 3;

/// An address.
#[repr(C)]
#[derive(Clone, Copy, Debug, Default, PartialEq, Eq)]
pub struct lisp_address {
    /// [`LISP_IPV4`] or [`LISP_IPV6`].
    pub family: u16,
    /// The bytes in network order; of an IPv4 address the first four, then zeros.
    pub octets: [u8; 16],
}

/// A locator of a record (RFC 9301 section 5.4).
#[repr(C)]
#[derive(Clone, Copy, Debug, Default, PartialEq, Eq)]
pub struct lisp_locator {
    /// Unicast priority: less is preferred, 255 is never used.
    pub priority: u8,
    /// The share of unicast traffic among locators of one priority.
    pub weight: u8,
    /// Multicast priority.
    pub m_priority: u8,
    /// Multicast weight.
    pub m_weight: u8,
    /// L, 1 or 0: the locator is of the router that sent the record.
    pub local: u8,
    /// p, 1 or 0: the locator is probed.
    pub probe: u8,
    /// R, 1 or 0: the sender can reach the locator.
    pub reachable: u8,
    /// The locator itself.
    pub address: lisp_address,
    /// Read only: where it ends, and the next one begins.
    pub end: usize,
}

/// A record but its locators (RFC 9301 section 5.4).
#[repr(C)]
#[derive(Clone, Copy, Debug, Default, PartialEq, Eq)]
pub struct lisp_record {
    /// How long a cache may keep the record, in minutes.
    pub ttl: u32,
    /// The Map-Version number, 0 to 4095.
    pub version: u16,
    /// The ACT bits, 0 to 7: what to do where the record has no locators.
    pub act: u8,
    /// A, 1 or 0: the record is its owner's own.
    pub authoritative: u8,
    /// The EID mask-len, 0 to 32 or 128.
    pub mask_len: u8,
    /// How many locators it has.
    pub locator_count: u8,
    /// The EID-Prefix; bits past the mask are 0, and are cleared where one is written.
    pub eid: lisp_address,
    /// Read only: where the first locator begins.
    pub locators_at: usize,
    /// Read only: where the record ends, and the next one begins.
    pub end: usize,
}

/// A message but its records (RFC 9301 sections 5.6 and 5.7).
#[repr(C)]
#[derive(Clone, Copy, Debug, Default, PartialEq, Eq)]
pub struct lisp_message {
    /// The nonce.
    pub nonce: u64,
    /// The Site-ID of a Map-Register.
    pub site: u64,
    /// The xTR-ID of a Map-Register.
    pub xtr: [u8; 16],
    /// [`LISP_MAP_REGISTER`], [`LISP_MAP_NOTIFY`] or [`LISP_MAP_NOTIFY_ACK`].
    pub kind: u8,
    /// Which secret the message is authenticated under.
    pub key_id: u8,
    /// P of a Map-Register, 1 or 0: the Map-Server is to answer Map-Requests.
    pub proxy: u8,
    /// S, 1 or 0: the router is capable of LISP-SEC.
    pub sec: u8,
    /// E, 1 or 0: dynamic EID discovery.
    pub eid_notify: u8,
    /// T, 1 or 0: registrations time out by the TTL of their records.
    pub use_ttl: u8,
    /// a, 1 or 0: the records are to be merged with those of other routers.
    pub merge: u8,
    /// M, 1 or 0: a Map-Notify is wanted.
    pub want_notify: u8,
    /// Read only: how many records it has.
    pub record_count: u8,
    /// Read only: where the first record begins, which is [`LISP_RECORDS_AT`].
    pub records_at: usize,
    /// Read only: where the last record ends.
    pub records_end: usize,
}

/// An EID-Prefix that is asked for (RFC 9301 section 5.2).
#[repr(C)]
#[derive(Clone, Copy, Debug, Default, PartialEq, Eq)]
pub struct lisp_prefix {
    /// The EID mask-len, 0 to 32 or 128.
    pub mask_len: u8,
    /// Bits past the mask are 0, and are cleared where one is written.
    pub address: lisp_address,
}

/// A Map-Request but its ITR-RLOCs and EID-Prefixes (RFC 9301 section 5.2).
#[repr(C)]
#[derive(Clone, Copy, Debug, Default, PartialEq, Eq)]
pub struct lisp_request {
    /// The nonce.
    pub nonce: u64,
    /// A, 1 or 0: an authoritative answer is wanted, from the site itself.
    pub authoritative: u8,
    /// P, 1 or 0: the ITR probes whether a locator is reached.
    pub probe: u8,
    /// S, 1 or 0: a Solicit-Map-Request, which asks the receiver to ask again.
    pub smr: u8,
    /// p, 1 or 0: a PITR sends it.
    pub pitr: u8,
    /// s, 1 or 0: a Solicit-Map-Request was the reason for it.
    pub smr_invoked: u8,
    /// L, 1 or 0: it comes from an xTR of the same site.
    pub local: u8,
    /// D, 1 or 0: no Map-Reply is wanted.
    pub no_reply: u8,
    /// Read only: how many ITR-RLOCs it has, 1 to [`LISP_ITR_RLOCS`].
    pub itr_rloc_count: u8,
    /// Read only: how many EID-Prefixes it has, 1 to [`LISP_EIDS`].
    pub eid_count: u8,
    /// The Source EID; of family 0 where there is none.
    pub source: lisp_address,
    /// Read only: where the first ITR-RLOC begins.
    pub itr_rlocs_at: usize,
    /// Read only: where the record of the first EID-Prefix begins.
    pub eids_at: usize,
    /// Read only: where the last record ends.
    pub end: usize,
}

/// A Map-Reply but its records (RFC 9301 sections 5.4 and 5.5).
#[repr(C)]
#[derive(Clone, Copy, Debug, Default, PartialEq, Eq)]
pub struct lisp_reply {
    /// The nonce of the Map-Request that it answers.
    pub nonce: u64,
    /// P, 1 or 0: it answers a probe.
    pub probe: u8,
    /// E, 1 or 0: the sender is capable of echoing nonces.
    pub echo_nonce: u8,
    /// S, 1 or 0: the sender is capable of LISP-SEC.
    pub sec: u8,
    /// Read only: how many records it has.
    pub record_count: u8,
    /// Read only: where the first record begins, which is [`LISP_REPLY_RECORDS_AT`].
    pub records_at: usize,
}

/// What stands around an encapsulated Map-Request (RFC 9301 section 5.8).
#[repr(C)]
#[derive(Clone, Copy, Debug, Default, PartialEq, Eq)]
pub struct lisp_encapsulated {
    /// The inner source address.
    pub source: lisp_address,
    /// The inner destination address, of the same family: an EID that is asked for.
    pub destination: lisp_address,
    /// The inner UDP source port, to which the Map-Reply goes.
    pub port: u16,
    /// Read only: where the control message begins.
    pub message_at: usize,
    /// Read only: how many bytes it has.
    pub message_length: usize,
}

/// A Map-Server that the library keeps, or none. It stays on the thread that started it, and is never copied.
#[repr(C)]
#[derive(Debug)]
pub struct lisp_server {
    /// Not for the program.
    pub core: *mut c_void,
}

/// A handle that holds none.
impl Default for lisp_server {
    fn default() -> Self {
        lisp_server { core: null_mut() }
    }
}

/// What a nonce is kept for: a router and the Key ID that it used, or nothing.
#[repr(C)]
#[derive(Clone, Copy, Debug, Default, PartialEq, Eq)]
pub struct lisp_pair {
    /// The Site-ID of the router.
    pub site: u64,
    /// Its xTR-ID.
    pub xtr: [u8; 16],
    /// The Key ID.
    pub key_id: u8,
    /// 0: there is none, and all is 0.
    pub is_there: u8,
}

/// A nonce that the program kept for a pair, or none.
#[repr(C)]
#[derive(Clone, Copy, Debug, Default, PartialEq, Eq)]
pub struct lisp_nonce {
    /// The nonce.
    pub nonce: u64,
    /// 0: none was ever saved for the pair.
    pub is_there: u8,
}

/// What a Map-Server took.
#[repr(C)]
#[derive(Clone, Copy, Debug, Default, PartialEq, Eq)]
pub struct lisp_received {
    /// The nonce of the Map-Register, which has to be saved; or of the notice that is done.
    pub nonce: u64,
    /// The Site-ID of the router.
    pub site: u64,
    /// Its xTR-ID.
    pub xtr: [u8; 16],
    /// The Key ID of the Map-Register, else 0.
    pub key_id: u8,
    /// 1: a Map-Register was accepted; 0: a Map-Notify-Ack ended a notice.
    pub accepted: u8,
    /// How many bytes of the buffer are the answer; 0 where none is sent.
    pub reply_length: usize,
}

/// A row that a Map-Server holds but its locators: a record, and the Map-Register that it came with last. Or none.
#[repr(C)]
#[derive(Clone, Copy, Debug, Default, PartialEq, Eq)]
pub struct lisp_row {
    /// The nonce of the Map-Register.
    pub nonce: u64,
    /// The Site-ID of the router.
    pub site: u64,
    /// When the Map-Register was accepted, in ms.
    pub accepted: u64,
    /// For how many ms from then on the row is alive.
    pub life: u64,
    /// The xTR-ID of the router.
    pub xtr: [u8; 16],
    /// Where the Map-Register came from.
    pub from: lisp_address,
    /// The Key ID of the Map-Register.
    pub key_id: u8,
    /// Its bit P, 1 or 0: the Map-Server replies for the router.
    pub proxy: u8,
    /// 0: there is none, and all is 0.
    pub is_there: u8,
    /// Its places, `locators_at` and `end`, are 0.
    pub record: lisp_record,
}

/// Who answers for an address (RFC 9301 section 8.3).
#[repr(C)]
#[derive(Clone, Copy, Debug, Default, PartialEq, Eq)]
pub struct lisp_answer {
    /// [`LISP_ANSWER_NO_SITE`], [`LISP_ANSWER_NOT_REGISTERED`], [`LISP_ANSWER_REPLY`] or [`LISP_ANSWER_FORWARD`].
    pub kind: u8,
    /// Of [`LISP_ANSWER_FORWARD`] where to forward the Map-Request, else 0.
    pub to: lisp_address,
    /// Of [`LISP_ANSWER_REPLY`] the record but its locators, with places of 0, else 0.
    pub record: lisp_record,
}

/// What is sent for an EID-Prefix that a Map-Request asks for (RFC 9301 sections 5.4, 8.2 and 8.3).
#[repr(C)]
#[derive(Clone, Copy, Debug, Default, PartialEq, Eq)]
pub struct lisp_replied {
    /// [`LISP_REPLIED_RECORDS`], [`LISP_REPLIED_NEGATIVE`], [`LISP_REPLIED_FORWARD`] or [`LISP_REPLIED_SILENT`].
    pub kind: u8,
    /// Of [`LISP_REPLIED_FORWARD`] where the Map-Request goes on to, UDP port 4342; else 0.
    pub to: lisp_address,
    /// How many bytes of the buffer are the Map-Reply; 0 where none is sent.
    pub length: usize,
}

/// Which router, or none.
#[repr(C)]
#[derive(Clone, Copy, Debug, Default, PartialEq, Eq)]
pub struct lisp_router_id {
    /// Its Site-ID.
    pub site: u64,
    /// Its xTR-ID.
    pub xtr: [u8; 16],
    /// Read only: 0: there is none, and all is 0.
    pub is_there: u8,
}

/// A notice: a Map-Notify that a Map-Server sends a router unasked (RFC 9301 section 5.7).
#[repr(C)]
#[derive(Clone, Copy, Debug, Default, PartialEq, Eq)]
pub struct lisp_notice {
    /// Which has to be saved before; 0 of a notice that is sent again.
    pub nonce: u64,
    /// Where to send it.
    pub to: lisp_address,
    /// How many bytes of the buffer it is.
    pub length: usize,
}

/// A router that the library keeps, or none. It stays on the thread that started it, and is never copied.
#[repr(C)]
#[derive(Debug)]
pub struct lisp_router {
    /// Not for the program.
    pub core: *mut c_void,
}

/// A handle that holds none.
impl Default for lisp_router {
    fn default() -> Self {
        lisp_router { core: null_mut() }
    }
}

/// What a router has to send, or nothing.
#[repr(C)]
#[derive(Clone, Copy, Debug, Default, PartialEq, Eq)]
pub struct lisp_due {
    /// To which of its Map-Servers, from 0 on, in the order of its configuration.
    pub server: usize,
    /// Which part of its database, from 0 on: a large one goes out in several Map-Registers.
    pub part: usize,
    /// 0: nothing is due, and all is 0.
    pub is_there: u8,
}

/// A Map-Register that a router sends (RFC 9301 section 5.6).
#[repr(C)]
#[derive(Clone, Copy, Debug, Default, PartialEq, Eq)]
pub struct lisp_sent {
    /// Which has to be saved before, where `must_save` is 1; else 0.
    pub nonce: u64,
    /// 0: a nonce that was saved before serves it too.
    pub must_save: u8,
    /// Where to send it.
    pub to: lisp_address,
    /// How many bytes of the buffer it is.
    pub length: usize,
}

/// What a router took (RFC 9301 section 5.7).
#[repr(C)]
#[derive(Clone, Copy, Debug, Default, PartialEq, Eq)]
pub struct lisp_seen {
    /// The nonce of the Map-Register that is acknowledged, or of the notice.
    pub nonce: u64,
    /// Of which Map-Server, as in [`lisp_due`].
    pub server: usize,
    /// Of an acknowledgement: which part it is of, as there; of a notice 0.
    pub part: usize,
    /// 1: a notice, which is answered; 0: a Map-Register is acknowledged.
    pub is_notice: u8,
    /// How many bytes of the buffer are the answer; 0 where none is sent.
    pub reply_length: usize,
}

extern "C" {
    /// Reads a datagram: what its message says but its records, and where these are (RFC 9301 sections 5.6 and 5.7).
    pub fn lisp_registration_read_message(
        bytes: *const u8,
        length: usize,
        message: *mut lisp_message,
    ) -> u16;

    /// Reads the record that begins at byte `at` of a datagram (RFC 9301 section 5.4).
    pub fn lisp_registration_read_record(
        bytes: *const u8,
        length: usize,
        at: usize,
        entry: *mut lisp_record,
    ) -> u16;

    /// Reads the locator that begins at byte `at` of a datagram (RFC 9301 section 5.4).
    pub fn lisp_registration_read_locator(
        bytes: *const u8,
        length: usize,
        at: usize,
        locator: *mut lisp_locator,
    ) -> u16;

    /// Whether the Authentication Data of a datagram is its tag under a secret (RFC 9301 section 5.6).
    pub fn lisp_registration_authentic(
        bytes: *const u8,
        length: usize,
        secret: *const u8,
        secret_length: usize,
    ) -> bool;

    /// Puts the tag of a datagram under a secret into its Authentication Data (RFC 9301 section 5.6).
    pub fn lisp_registration_sign(
        bytes: *mut u8,
        length: usize,
        secret: *const u8,
        secret_length: usize,
    ) -> u16;

    /// Writes the datagram of a message, authentic under a secret (RFC 9301 sections 5.6 and 5.7).
    pub fn lisp_registration_write_message(
        message: *const lisp_message,
        records: *const lisp_record,
        record_count: usize,
        locators: *const lisp_locator,
        locator_count: usize,
        secret: *const u8,
        secret_length: usize,
        buffer: *mut u8,
        room: usize,
        length: *mut usize,
    ) -> u16;

    /// Reads a Map-Request: what it says but its ITR-RLOCs and EID-Prefixes, and where these are (RFC 9301 section 5.2).
    pub fn lisp_registration_read_request(
        bytes: *const u8,
        length: usize,
        request: *mut lisp_request,
    ) -> u16;

    /// Reads the ITR-RLOC that begins at byte `at` of a Map-Request, and tells where it ends (RFC 9301 section 5.2).
    pub fn lisp_registration_read_itr_rloc(
        bytes: *const u8,
        length: usize,
        at: usize,
        itr_rloc: *mut lisp_address,
        end: *mut usize,
    ) -> u16;

    /// Reads the EID-Prefix of the record that begins at byte `at` of a Map-Request, and tells where that ends (RFC 9301 section
    /// 5.2).
    pub fn lisp_registration_read_eid(
        bytes: *const u8,
        length: usize,
        at: usize,
        eid: *mut lisp_prefix,
        end: *mut usize,
    ) -> u16;

    /// Reads a Map-Reply: what it says but its records, and where these are (RFC 9301 sections 5.4 and 5.5).
    pub fn lisp_registration_read_reply(
        bytes: *const u8,
        length: usize,
        reply: *mut lisp_reply,
    ) -> u16;

    /// Reads what stands around an encapsulated control message, and tells where that message is (RFC 9301 section 5.8).
    pub fn lisp_registration_read_encapsulated(
        bytes: *const u8,
        length: usize,
        encapsulated: *mut lisp_encapsulated,
    ) -> u16;

    /// Writes a Map-Request of these ITR-RLOCs and EID-Prefixes (RFC 9301 section 5.2).
    pub fn lisp_registration_write_request(
        request: *const lisp_request,
        itr_rlocs: *const lisp_address,
        itr_rloc_count: usize,
        eids: *const lisp_prefix,
        eid_count: usize,
        buffer: *mut u8,
        room: usize,
        length: *mut usize,
    ) -> u16;

    /// Writes a Map-Reply of these records (RFC 9301 sections 5.4 and 5.5).
    pub fn lisp_registration_write_reply(
        reply: *const lisp_reply,
        records: *const lisp_record,
        record_count: usize,
        locators: *const lisp_locator,
        locator_count: usize,
        buffer: *mut u8,
        room: usize,
        length: *mut usize,
    ) -> u16;

    /// Writes a control message after the headers of an encapsulated one (RFC 9301 section 5.8).
    pub fn lisp_registration_write_encapsulated(
        encapsulated: *const lisp_encapsulated,
        message: *const u8,
        message_length: usize,
        buffer: *mut u8,
        room: usize,
        length: *mut usize,
    ) -> u16;

    /// Starts a Map-Server of the sites of a configuration; what the handle held before is stopped.
    pub fn lisp_registration_server_start(
        configuration: *const u8,
        length: usize,
        server: *mut lisp_server,
    ) -> u16;

    /// Stops the Map-Server of a handle, if it holds one, and gives all its memory back.
    pub fn lisp_registration_server_stop(server: *mut lisp_server);

    /// Starts the Map-Server of a handle again, as after a crash.
    pub fn lisp_registration_server_restart(server: *mut lisp_server) -> u16;

    /// Has the Map-Server of a handle take the sites of a configuration in place of its own: 1 where it goes on with what it held,
    /// since they have all that its own have, 0 where it starts anew.
    pub fn lisp_registration_server_reload(
        configuration: *const u8,
        length: usize,
        server: *mut lisp_server,
        goes_on: *mut u8,
    ) -> u16;

    /// Names the pair whose last nonce a datagram needs, or none.
    pub fn lisp_registration_server_pair(bytes: *const u8, length: usize, pair: *mut lisp_pair);

    /// Receives a datagram that came from an address at a time, in ms (RFC 9301 section 8.2). An accepted nonce has to be saved
    /// before the answer is sent.
    pub fn lisp_registration_server_receive(
        server: *mut lisp_server,
        kept: *const lisp_nonce,
        from: *const lisp_address,
        bytes: *const u8,
        length: usize,
        now: u64,
        buffer: *mut u8,
        room: usize,
        received: *mut lisp_received,
    ) -> u16;

    /// Drops the rows of a Map-Server that are dead at a time, in ms.
    pub fn lisp_registration_server_expire(server: *mut lisp_server, now: u64) -> u16;

    /// Tells the first row from a place on that is alive at a time, in ms, and the place behind it.
    pub fn lisp_registration_server_row(
        server: *mut lisp_server,
        now: u64,
        place: *mut usize,
        row: *mut lisp_row,
        locators: *mut lisp_locator,
        room: usize,
    ) -> u16;

    /// Tells who answers for an address at a time, in ms (RFC 9301 section 8.3).
    pub fn lisp_registration_server_answer(
        server: *mut lisp_server,
        address: *const lisp_address,
        now: u64,
        answer: *mut lisp_answer,
        locators: *mut lisp_locator,
        room: usize,
    ) -> u16;

    /// Tells what a Map-Server sends for an EID-Prefix that a Map-Request asks for, at a time, in ms (RFC 9301 sections 5.4, 5.5, 8.3
    /// and 8.4).
    pub fn lisp_registration_server_reply(
        server: *mut lisp_server,
        eid: *const lisp_prefix,
        nonce: u64,
        starting: u8,
        now: u64,
        buffer: *mut u8,
        room: usize,
        replied: *mut lisp_replied,
    ) -> u16;

    /// Names the least router, by Site-ID, then xTR-ID, to which a notice is due again at a time, in ms.
    pub fn lisp_registration_server_due(
        server: *mut lisp_server,
        now: u64,
        router: *mut lisp_router_id,
    ) -> u16;

    /// Makes a notice for a router at a time, in ms (RFC 9301 section 5.7). Its nonce has to be saved before it is sent.
    pub fn lisp_registration_server_notify(
        server: *mut lisp_server,
        kept: *const lisp_nonce,
        router: *const lisp_router_id,
        now: u64,
        buffer: *mut u8,
        room: usize,
        notice: *mut lisp_notice,
    ) -> u16;

    /// Sends a router again the notice that is due at a time, in ms (RFC 9301 section 5.7).
    pub fn lisp_registration_server_resend(
        server: *mut lisp_server,
        router: *const lisp_router_id,
        now: u64,
        buffer: *mut u8,
        room: usize,
        notice: *mut lisp_notice,
    ) -> u16;

    /// Names what the nonces of a router of a configuration are kept for.
    pub fn lisp_registration_router_pair(
        configuration: *const u8,
        length: usize,
        name: *const u8,
        name_length: usize,
        pair: *mut lisp_pair,
    ) -> u16;

    /// Starts a router of a configuration at a time, in ms, over the nonce that was saved last; what the handle held before is
    /// stopped.
    pub fn lisp_registration_router_start(
        configuration: *const u8,
        length: usize,
        name: *const u8,
        name_length: usize,
        kept: *const lisp_nonce,
        now: u64,
        router: *mut lisp_router,
    ) -> u16;

    /// Stops the router of a handle, if it holds one, and gives all its memory back.
    pub fn lisp_registration_router_stop(router: *mut lisp_router);

    /// Tells what a router has to send at a time, in ms.
    pub fn lisp_registration_router_due(
        router: *mut lisp_router,
        now: u64,
        due: *mut lisp_due,
    ) -> u16;

    /// Makes the Map-Register of a part for a Map-Server at a time, in ms (RFC 9301 section 5.6). A nonce that has to be saved is
    /// saved before it is sent.
    pub fn lisp_registration_router_send(
        router: *mut lisp_router,
        server: usize,
        part: usize,
        now: u64,
        buffer: *mut u8,
        room: usize,
        sent: *mut lisp_sent,
    ) -> u16;

    /// Receives a datagram that came from an address at a time, in ms (RFC 9301 section 5.7).
    pub fn lisp_registration_router_receive(
        router: *mut lisp_router,
        from: *const lisp_address,
        bytes: *const u8,
        length: usize,
        now: u64,
        buffer: *mut u8,
        room: usize,
        seen: *mut lisp_seen,
    ) -> u16;

    /// Tells what a router sends for an EID-Prefix that a Map-Request asks for (RFC 9301 sections 5.4, 5.5, 7.1 and 8.2). An address of
    /// family 0 is not probed.
    pub fn lisp_registration_router_reply(
        router: *mut lisp_router,
        eid: *const lisp_prefix,
        nonce: u64,
        probe: u8,
        probed: *const lisp_address,
        buffer: *mut u8,
        room: usize,
        replied: *mut lisp_replied,
    ) -> u16;

    /// Registers from a time on, in ms, the records that a configuration has for a name.
    pub fn lisp_registration_router_change(
        configuration: *const u8,
        length: usize,
        name: *const u8,
        name_length: usize,
        now: u64,
        router: *mut lisp_router,
    ) -> u16;
}
