//! A router of `examples/worked.toml`: what it sends and when, what it takes, and each error once, but those of no memory,
//! which `out_of_memory` has.
#![allow(missing_docs)]

mod common;

use common::{
    address, cut_short, map_notify, map_register, notification, record, CONFIGURATION,
    FIRST_NOTICE, LAST_MOMENT, PAIR, SECRET, SERVER_ADDRESSES,
};
use lisp_registration::router::{pair, Due, Pair, Refusal, Router, Seen, SendError, StartError};
use lisp_registration::{
    write, Datagram, Error, Kind, Message, RecordFault, RecordWithLocators, MESSAGE_ROOM,
};
use std::error::Error as _;
use std::net::IpAddr;

/// What the router has to send to its first Map-Server, and to its second one.
const FIRST: Due = Due { server: 0, part: 0 };
const SECOND: Due = Due { server: 1, part: 0 };

fn started(kept: Option<u64>) -> Router {
    Router::start(CONFIGURATION, "r1", kept, 0).unwrap()
}

fn server(number: usize) -> IpAddr {
    address(SERVER_ADDRESSES[number])
}

/// The nonce to save, and the datagram, which goes to the address of its Map-Server.
fn sent(
    router: &mut Router,
    register: Due,
    now_ms: u64,
) -> Result<(Option<u64>, Vec<u8>), SendError> {
    let mut buffer = [0; MESSAGE_ROOM];
    let sent = router.send(register, now_ms, &mut buffer)?;
    assert_eq!(sent.to, server(register.server));
    Ok((sent.save, sent.datagram.to_vec()))
}

/// The nonce of a datagram that is sent at time 0.
fn nonce(router: &mut Router, register: Due) -> u64 {
    let (_, bytes) = sent(router, register, 0).unwrap();
    Datagram::parse(&bytes).unwrap().message().nonce
}

/// What a router makes of a datagram: what it took, and the reply.
fn seen(router: &mut Router, from: IpAddr, bytes: &[u8]) -> Result<Option<Vec<u8>>, Refusal> {
    let mut buffer = vec![0; bytes.len()];
    match router.receive(from, bytes, 0, &mut buffer)? {
        Seen::Acknowledged { .. } => Ok(None),
        Seen::Notice { reply, .. } => Ok(Some(reply.to_vec())),
    }
}

/// A Map-Notify with the worked record, under a nonce.
fn notify(nonce: u64) -> Vec<u8> {
    write(&Message { nonce, ..notification() }, &[record()], SECRET).unwrap()
}

fn records(bytes: &[u8]) -> Vec<RecordWithLocators> {
    Datagram::parse(bytes).unwrap().records().map(Into::into).collect()
}

#[test]
fn pairs_of_routers() {
    assert_eq!(pair(CONFIGURATION, "r1"), Ok(PAIR));
    assert_eq!(pair(CONFIGURATION, "r2"), Ok(Pair { xtr: 11_u128.to_be_bytes(), ..PAIR }));
}

#[test]
fn the_worked_map_register_comes_first() {
    let mut router = started(None);
    assert_eq!(router.due(0), Some(FIRST));
    assert_eq!(sent(&mut router, FIRST, 0), Ok((Some(1), map_register())));
    assert_eq!(router.due(0), Some(SECOND));
    assert_eq!(sent(&mut router, SECOND, 0).map(|(save, _)| save), Ok(Some(2)));
    assert_eq!(router.due(0), None);
}

/// Without an acknowledgement a Map-Register is due again after 1, 2, 4, 8, 16, 32 s, then every 60 s; after one 60 s from its send on.
#[test]
fn what_is_not_acknowledged_is_due_again() {
    let mut router = started(None);
    let mut now = 0;
    for pause in [1_000, 2_000, 4_000, 8_000, 16_000, 32_000, 60_000, 60_000] {
        let _ = sent(&mut router, FIRST, now).unwrap();
        let _ = sent(&mut router, SECOND, now).unwrap();
        assert_eq!(router.due(now + pause - 1), None);
        now += pause;
        assert_eq!(router.due(now), Some(FIRST));
    }
}

#[test]
fn an_acknowledgement_is_counted() {
    let mut router = started(None);
    let _ = sent(&mut router, FIRST, 0).unwrap();
    let _ = sent(&mut router, SECOND, 0).unwrap();
    let mut buffer = [0xee; 60];
    let counted = router.receive(server(0), &map_notify(), 0, &mut buffer);
    assert_eq!(counted, Ok(Seen::Acknowledged { register: FIRST, nonce: 1 }));
    assert_eq!(buffer, [0xee; 60]);
    assert_eq!(router.due(1_000), Some(SECOND));
    let _ = sent(&mut router, SECOND, 1_000).unwrap();
    let counted = router.receive(server(1), &notify(3), 0, &mut buffer);
    assert_eq!(counted, Ok(Seen::Acknowledged { register: SECOND, nonce: 3 }));
    assert_eq!((router.due(59_999), router.due(60_000)), (None, Some(FIRST)));
}

#[test]
fn a_notice_is_answered() {
    let (mut router, mut buffer) = (started(None), [0xee; 100]);
    let answer = router.receive(server(1), &notify(FIRST_NOTICE), 0, &mut buffer);
    let Ok(Seen::Notice { server: 1, nonce: FIRST_NOTICE, reply }) = answer else {
        panic!("{answer:?}");
    };
    let datagram = Datagram::parse(reply).unwrap();
    let wanted = Message { kind: Kind::MapNotifyAck, nonce: FIRST_NOTICE, ..notification() };
    assert_eq!(datagram.message(), wanted);
    assert!(datagram.is_authentic(SECRET));
    assert_eq!(records(reply), [record()]);
    let length = reply.len();
    assert!(buffer[length..].iter().all(|&byte| byte == 0xee));
}

/// A router goes on above the nonce that was kept.
#[test]
fn nonces_rise() {
    for (kept, first) in [(None, 1), (Some(0), 1), (Some(7), 8)] {
        let mut router = started(kept);
        assert_eq!(sent(&mut router, FIRST, 0).map(|(save, _)| save), Ok(Some(first)));
        assert_eq!(nonce(&mut router, FIRST), first + 1);
    }
}

/// One nonce that is saved serves a block of datagrams, and is the last one of theirs.
#[test]
fn a_save_serves_a_block() {
    let configuration = CONFIGURATION.replace("proxy = true", "proxy = true\nnonce_block = 3");
    let mut router = Router::start(&configuration, "r1", Some(4), 0).unwrap();
    for (nonce, save) in (5..).zip([Some(7), None, None, Some(10), None]) {
        let (saved, bytes) = sent(&mut router, FIRST, 0).unwrap();
        assert_eq!((Datagram::parse(&bytes).unwrap().message().nonce, saved), (nonce, save));
    }
}

#[test]
fn the_buffer_keeps_the_rest() {
    let (mut router, mut buffer) = (started(None), vec![0xee; MESSAGE_ROOM + 1]);
    let length = router.send(FIRST, 0, &mut buffer).unwrap().datagram.len();
    assert_eq!(length, map_register().len());
    assert!(buffer[length..].iter().all(|&byte| byte == 0xee));
}

#[test]
fn other_records_are_registered() {
    let mut router = started(None);
    let _ = sent(&mut router, FIRST, 0).unwrap();
    let _ = sent(&mut router, SECOND, 0).unwrap();
    let changed = CONFIGURATION.replace("10.1.0.0/16=1440+192.0.2.1", "10.1.9.0/24=5+192.0.2.1");
    assert_eq!(router.change(&changed, "r1", 500), Ok(()));
    assert_eq!(router.due(500), Some(FIRST));
    let (save, bytes) = sent(&mut router, FIRST, 500).unwrap();
    let mut wanted = record();
    (wanted.record.eid, wanted.record.mask_len) = (address("10.1.9.0"), 24);
    wanted.record.ttl = 5;
    assert_eq!((save, records(&bytes)), (Some(3), vec![wanted]));
    assert_eq!(seen(&mut router, server(0), &map_notify()), Err(Refusal::Stale));
}

#[test]
fn a_change_that_is_refused_changes_nothing() {
    let mut router = started(None);
    let _ = sent(&mut router, FIRST, 0).unwrap();
    let _ = sent(&mut router, SECOND, 0).unwrap();
    assert_eq!(router.change("x=", "r1", 0), Err(StartError::Toml));
    assert_eq!(router.change(CONFIGURATION, "r3", 0), Err(StartError::NoRouter));
    assert_eq!(router.due(0), None);
    assert_eq!(seen(&mut router, server(0), &map_notify()), Ok(None));
}

#[test]
fn configurations_without_the_router() {
    let faults = [
        ("[[router".to_string(), StartError::Toml, 20),
        (CONFIGURATION.replace("key = 1\n", ""), StartError::Missing, 21),
        (CONFIGURATION.replace("key = 1\n", "key = 9\n"), StartError::BadValue, 22),
        (CONFIGURATION.replace("\"r2\"", "\"r1\""), StartError::Repeated, 23),
        (CONFIGURATION.replace("\"r1\"", "\"r3\""), StartError::NoRouter, 106),
    ];
    for (text, error, number) in faults {
        assert_eq!(Router::start(&text, "r1", None, 0).map(|_| ()), Err(error));
        assert_eq!(pair(&text, "r1"), Err(error));
        assert_eq!(error.number(), number);
    }
    for name in ["", "s1", "r", "R1", "r1 "] {
        assert_eq!(pair(CONFIGURATION, name), Err(StartError::NoRouter));
    }
    let words = StartError::NoRouter.to_string();
    assert_eq!(words, "no router of the configuration has the name");
}

/// Each error of sending, over a router that is left as it was.
#[test]
fn errors_of_sending() {
    let mut router = started(None);
    let (small, room) = (&mut [0xee; MESSAGE_ROOM - 1], SendError::Room { needed: MESSAGE_ROOM });
    assert_eq!(router.send(FIRST, LAST_MOMENT + 1, small), Err(room));
    assert!(small.iter().all(|&byte| byte == 0xee));
    let (no_server, no_part) = (Due { server: 2, part: 0 }, Due { server: 0, part: 1 });
    assert_eq!(sent(&mut router, no_server, LAST_MOMENT + 1), Err(SendError::Clock));
    assert_eq!(sent(&mut router, no_server, LAST_MOMENT), Err(SendError::NoServer));
    assert_eq!(sent(&mut router, no_part, LAST_MOMENT), Err(SendError::NoPart));
    let last = Due { server: usize::MAX, part: usize::MAX };
    assert_eq!(sent(&mut router, last, 0), Err(SendError::NoServer));
    assert_eq!(sent(&mut router, FIRST, 0), Ok((Some(1), map_register())));
    for kept in [FIRST_NOTICE - 1, u64::MAX] {
        assert_eq!(sent(&mut started(Some(kept)), FIRST, 0), Err(SendError::NonceSpent));
    }
    let errors = [room, SendError::Clock, SendError::NoServer, SendError::NoPart];
    assert_eq!(errors.map(SendError::number), [102, 73, 40, 49]);
    assert_eq!(SendError::NonceSpent.number(), 41);
    assert_eq!(SendError::NoPart.to_string(), "the router's database has no such part");
}

/// Datagrams that are refused, where they come from, and why.
fn refused() -> Vec<(Vec<u8>, IpAddr, Refusal, u16)> {
    let other_key = Message { key_id: 2, ..notification() };
    let fault = Error::Record { index: 0, fault: RecordFault::Short };
    let mut forged = map_notify();
    forged[31] ^= 1;
    vec![
        (cut_short(), server(0), Refusal::Read { fault }, 43),
        (vec![], server(0), Refusal::Read { fault: Error::Short }, 43),
        (map_register(), server(0), Refusal::NotMine, 44),
        (map_notify(), address("127.0.0.13"), Refusal::NotMine, 44),
        (write(&other_key, &[], SECRET).unwrap(), server(0), Refusal::WrongKey, 45),
        (forged, server(0), Refusal::BadAuth, 46),
        (notify(2), server(0), Refusal::Stale, 47),
        (map_notify(), server(1), Refusal::Stale, 47),
        (notify(FIRST_NOTICE - 1), server(0), Refusal::Stale, 47),
    ]
}

#[test]
fn refusals_change_nothing() {
    let mut router = started(None);
    let _ = sent(&mut router, FIRST, 0).unwrap();
    for (bytes, from, refusal, number) in refused() {
        assert_eq!(seen(&mut router, from, &bytes), Err(refusal));
        assert_eq!(refusal.number(), number);
    }
    let small = &mut [0; 59];
    let answer = router.receive(server(0), &map_notify(), 0, small);
    assert_eq!(answer, Err(Refusal::Room { needed: 60 }));
    assert_eq!(seen(&mut router, server(0), &map_notify()), Ok(None));
    let read = Refusal::Read { fault: Error::Short };
    assert_eq!(read.source().unwrap().to_string(), Error::Short.to_string());
    assert_eq!(Refusal::Stale.to_string(), "the nonce is not that of a last Map-Register");
}

/// Two routers have nothing in common, and one is stopped while the other goes on.
#[test]
fn routers_are_apart() {
    let (mut first, mut second) = (started(None), started(None));
    assert_eq!(nonce(&mut first, FIRST), 1);
    drop(first);
    assert_eq!(nonce(&mut second, FIRST), 1);
}
