//! What the tests share: the datagrams of `examples`, and what they say (`examples/README.md`, `docs/PROTOCOL.md`).
#![allow(dead_code, missing_docs)]

use lisp_registration::server::{MapServer, Pair, Received, RouterId};
use lisp_registration::{write, Kind, Locator, Message, Record, RecordWithLocators, Registration};
use std::net::IpAddr;

pub const SECRET: &[u8] = b"secret";

pub const CONFIGURATION: &str = include_str!("../../../../worked.toml");

/// The first router of the configuration.
pub const ROUTER: RouterId = RouterId { site: 1, xtr: 10_u128.to_be_bytes() };

/// What its nonces are kept for, which is also the pair of the worked Map-Register.
pub const PAIR: Pair = Pair { site: ROUTER.site, xtr: ROUTER.xtr, key_id: 1 };

/// The address of the first router, and those of its Map-Servers.
pub const ROUTER_ADDRESS: &str = "127.0.0.21";
pub const SERVER_ADDRESSES: [&str; 2] = ["127.0.0.11", "127.0.0.12"];

/// The first nonce of a notice.
pub const FIRST_NOTICE: u64 = 1 << 63;

/// The last time that may be given, in ms.
pub const LAST_MOMENT: u64 = 1 << 62;

/// The bytes of hexadecimal digits; `None` for what is no such text.
pub fn bytes_of(text: &str) -> Option<Vec<u8>> {
    let digits: Vec<u32> = text
        .trim_end_matches('\n')
        .chars()
        .map(|digit| digit.to_digit(16))
        .collect::<Option<_>>()?;
    let pairs = digits.chunks_exact(2);
    if !pairs.remainder().is_empty() {
        return None;
    }
    pairs.map(|pair| u8::try_from(pair[0] << 4 | pair[1]).ok()).collect()
}

pub fn map_register() -> Vec<u8> {
    bytes_of(include_str!("../../../../map-register.hex")).unwrap()
}

pub fn map_notify() -> Vec<u8> {
    bytes_of(include_str!("../../../../map-notify.hex")).unwrap()
}

pub fn wrong_tag() -> Vec<u8> {
    bytes_of(include_str!("../../../../wrong-tag.hex")).unwrap()
}

pub fn cut_short() -> Vec<u8> {
    bytes_of(include_str!("../../../../cut-short.hex")).unwrap()
}

pub fn address(text: &str) -> IpAddr {
    text.parse().unwrap()
}

/// The message of the worked Map-Register: it has P, I and M set, xTR-ID 10 and Site-ID 1.
pub fn registration() -> Message {
    let registration = Registration {
        xtr: 10_u128.to_be_bytes(),
        site: 1,
        proxy: true,
        want_notify: true,
        ..Registration::default()
    };
    Message { kind: Kind::MapRegister(registration), nonce: 1, key_id: 1 }
}

/// The message of the worked Map-Notify.
pub fn notification() -> Message {
    Message { kind: Kind::MapNotify, ..registration() }
}

/// The record of both: 10.1.0.0/16 for a day, as its owner has it, with one locator.
pub fn record() -> RecordWithLocators {
    RecordWithLocators {
        record: Record {
            eid: address("10.1.0.0"),
            mask_len: 16,
            ttl: 1440,
            act: 0,
            authoritative: true,
            version: 0,
        },
        locators: vec![locator("192.0.2.1")],
    }
}

/// A locator of the router itself, which can be reached, with the usual priorities and weights.
pub fn locator(text: &str) -> Locator {
    Locator {
        address: address(text),
        priority: 1,
        weight: 100,
        multicast_priority: 255,
        multicast_weight: 0,
        local: true,
        probe: false,
        reachable: true,
    }
}

/// The worked Map-Register with another nonce and with these records.
pub fn register(nonce: u64, records: &[RecordWithLocators]) -> Vec<u8> {
    write(&Message { nonce, ..registration() }, records, SECRET).unwrap()
}

/// Has a Map-Server accept a Map-Register of the first router at a time.
pub fn accept(server: &mut MapServer, datagram: &[u8], now_ms: u64) {
    let mut buffer = [0; 65_536];
    let accepted = server.receive(None, address(ROUTER_ADDRESS), datagram, now_ms, &mut buffer);
    assert!(matches!(accepted, Ok(Received::Accepted { .. })));
}
