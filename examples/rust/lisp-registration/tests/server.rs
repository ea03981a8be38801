//! A Map-Server over `examples/worked.toml`: the worked exchange, replays, starting again, other sites, and each error once, but those
//! of no memory, which `out_of_memory` has.
#![allow(missing_docs)]

mod common;

use common::{
    address, cut_short, map_notify, map_register, notification, record, register, registration,
    wrong_tag, CONFIGURATION, PAIR, ROUTER_ADDRESS, SECRET,
};
use lisp_registration::server::{pair, MapServer, Pair, Received, Refusal, StartError};
use lisp_registration::{sign, write, Datagram, Error, Kind, Message, RecordFault, Registration};
use std::error::Error as _;

fn started() -> MapServer {
    MapServer::start(CONFIGURATION).unwrap()
}

/// What a Map-Server answers to a datagram of the first router: the accepted nonce and the reply.
fn answer(
    server: &mut MapServer,
    kept: Option<u64>,
    datagram: &[u8],
) -> Result<(u64, Option<Vec<u8>>), Refusal> {
    let mut buffer = [0xee; 1500];
    match server.receive(kept, address(ROUTER_ADDRESS), datagram, 1000, &mut buffer)? {
        Received::Accepted { pair, nonce, reply } => {
            assert_eq!(pair, PAIR);
            Ok((nonce, reply.map(<[u8]>::to_vec)))
        }
        Received::NoticeDone { .. } => panic!("no notice stands"),
    }
}

/// The worked Map-Register with another nonce.
fn with_nonce(nonce: u64) -> Vec<u8> {
    register(nonce, &[record()])
}

/// The worked Map-Register, changed.
fn changed(change: impl FnOnce(&mut Registration)) -> Vec<u8> {
    let mut message = registration();
    if let Kind::MapRegister(registration) = &mut message.kind {
        change(registration);
    }
    write(&message, &[record()], SECRET).unwrap()
}

#[test]
fn the_worked_exchange() {
    let mut server = started();
    let bytes = map_register();
    assert_eq!(pair(&bytes), Some(PAIR));
    assert_eq!(answer(&mut server, None, &bytes), Ok((1, Some(map_notify()))));
}

#[test]
fn the_buffer_needs_the_room_of_the_datagram_and_keeps_the_rest() {
    let (mut server, bytes, from) = (started(), map_register(), address(ROUTER_ADDRESS));
    let mut buffer = vec![0xee; bytes.len()];
    let needed = bytes.len();
    for room in [0, needed - 1] {
        let answer = server.receive(None, from, &bytes, 0, &mut buffer[..room]);
        assert_eq!(answer, Err(Refusal::Room { needed }));
    }
    assert!(buffer.iter().all(|&byte| byte == 0xee));
    let answer = server.receive(None, from, &bytes, 0, &mut buffer);
    let reply = Some(map_notify());
    assert_eq!(answer, Ok(Received::Accepted { pair: PAIR, nonce: 1, reply: reply.as_deref() }));
    assert!(buffer[map_notify().len()..].iter().all(|&byte| byte == 0xee));
}

#[test]
fn no_reply_where_none_is_wanted() {
    let quiet = changed(|registration| registration.want_notify = false);
    assert_eq!(answer(&mut started(), None, &quiet), Ok((1, None)));
}

#[test]
fn a_repeated_nonce_is_refused() {
    let mut server = started();
    assert!(answer(&mut server, None, &with_nonce(5)).is_ok());
    for nonce in [0, 4, 5] {
        assert_eq!(answer(&mut server, None, &with_nonce(nonce)), Err(Refusal::Replay));
    }
    assert_eq!(answer(&mut server, None, &with_nonce(6)).map(|(nonce, _)| nonce), Ok(6));
}

#[test]
fn every_nonce_passes_where_none_was_kept() {
    for nonce in [0, 1, u64::MAX] {
        let accepted = answer(&mut started(), None, &with_nonce(nonce));
        assert_eq!(accepted.map(|(nonce, _)| nonce), Ok(nonce));
        assert_eq!(answer(&mut started(), Some(nonce), &with_nonce(nonce)), Err(Refusal::Replay));
    }
    assert!(answer(&mut started(), Some(0), &with_nonce(1)).is_ok());
}

/// What is said of one who doesn't save: only the kept nonce refuses a Map-Register that was accepted before a crash.
#[test]
fn after_a_restart_the_kept_nonce_alone_refuses_a_replay() {
    let (mut server, bytes) = (started(), map_register());
    let (nonce, _) = answer(&mut server, None, &bytes).unwrap();
    assert_eq!(answer(&mut server, None, &bytes), Err(Refusal::Replay));
    server.restart();
    assert_eq!(answer(&mut server, Some(nonce), &bytes), Err(Refusal::Replay));
    assert!(answer(&mut server, Some(nonce), &with_nonce(nonce + 1)).is_ok());
    server.restart();
    assert_eq!(answer(&mut server, None, &bytes), Ok((1, Some(map_notify()))));
}

/// The worked configuration with one more site.
fn another_site() -> String {
    let site = CONFIGURATION.split("[[server]]").next().unwrap();
    let other = site.replace("id = \"0000000000000001\"", "id = \"0000000000000002\"");
    format!("{other}{CONFIGURATION}")
}

#[test]
fn sites_that_have_all_that_the_old_ones_have_keep_what_is_held() {
    let (mut server, bytes) = (started(), map_register());
    assert!(answer(&mut server, None, &bytes).is_ok());
    for configuration in [CONFIGURATION, &another_site()] {
        assert_eq!(server.reload(configuration), Ok(true));
        assert_eq!(server.rows(1000).count(), 1);
        assert_eq!(answer(&mut server, None, &bytes), Err(Refusal::Replay));
    }
    let (other, mut buffer) = (changed(|registration| registration.site = 2), [0; 200]);
    let answer = server.receive(None, address(ROUTER_ADDRESS), &other, 1000, &mut buffer);
    assert!(matches!(answer, Ok(Received::Accepted { pair: Pair { site: 2, .. }, .. })));
}

#[test]
fn sites_that_lack_something_start_a_map_server_anew() {
    let (mut server, bytes) = (MapServer::start(&another_site()).unwrap(), map_register());
    assert!(answer(&mut server, None, &bytes).is_ok());
    assert_eq!(server.reload(CONFIGURATION), Ok(false));
    assert_eq!(server.rows(1000).count(), 0);
    assert_eq!(answer(&mut server, Some(1), &bytes), Err(Refusal::Replay));
    assert!(answer(&mut server, None, &bytes).is_ok());
    assert_eq!(server.reload(""), Ok(false));
    assert_eq!(answer(&mut server, None, &bytes), Err(Refusal::UnknownSite));
}

#[test]
fn a_configuration_with_a_fault_changes_nothing() {
    let mut server = started();
    assert!(answer(&mut server, None, &map_register()).is_ok());
    assert_eq!(server.reload("[[site"), Err(StartError::Toml));
    assert_eq!(server.rows(1000).count(), 1);
    assert_eq!(answer(&mut server, None, &map_register()), Err(Refusal::Replay));
}

#[test]
fn pairs_are_those_of_map_registers() {
    assert_eq!(pair(&wrong_tag()), Some(PAIR));
    let other = Message { key_id: 7, ..registration() };
    let bytes = write(&other, &[], SECRET).unwrap();
    assert_eq!(pair(&bytes), Some(Pair { key_id: 7, ..PAIR }));
    for bytes in [&[][..], &map_notify(), &cut_short(), &map_register()[..83]] {
        assert_eq!(pair(bytes), None);
    }
}

/// Datagrams that are refused: each changes nothing, so that the worked exchange follows.
fn refused() -> Vec<(Vec<u8>, Refusal, u16)> {
    let mut outside = record();
    outside.record.eid = address("10.2.0.0");
    let other_key = Message { key_id: 2, ..registration() };
    let acknowledgement = Message { kind: Kind::MapNotifyAck, ..notification() };
    let written = |message, record| write(&message, &[record], SECRET).unwrap();
    let fault = Error::Record { index: 0, fault: RecordFault::Short };
    vec![
        (cut_short(), Refusal::Read { fault }, 50),
        (vec![], Refusal::Read { fault: Error::Short }, 50),
        (changed(|registration| registration.site = 2), Refusal::UnknownSite, 51),
        (written(other_key, record()), Refusal::UnknownKey, 52),
        (wrong_tag(), Refusal::BadAuth, 53),
        (changed(|registration| registration.merge = true), Refusal::MergeAsked, 54),
        (written(registration(), outside), Refusal::NotAllowed, 55),
        (written(acknowledgement, record()), Refusal::NoNotice, 60),
        (map_notify(), Refusal::NotMine, 61),
    ]
}

#[test]
fn refusals_change_nothing() {
    let mut server = started();
    for (bytes, refusal, number) in refused() {
        assert_eq!(answer(&mut server, None, &bytes), Err(refusal));
        assert_eq!(refusal.number(), number);
    }
    assert_eq!(answer(&mut server, None, &map_register()), Ok((1, Some(map_notify()))));
    assert_eq!(Refusal::Replay.number(), 57);
    assert_eq!(Refusal::Room { needed: 1 }.number(), 102);
}

#[test]
fn refusals_are_told_in_words() {
    let read = Refusal::Read { fault: Error::Short };
    assert_eq!(read.to_string(), "the datagram can't be read");
    assert_eq!(read.source().unwrap().to_string(), Error::Short.to_string());
    assert_eq!(Refusal::Room { needed: 9 }.to_string(), "the buffer has no room for 9 bytes");
    assert!(Refusal::Replay.source().is_none());
}

#[test]
fn configurations_that_are_refused() {
    let site = CONFIGURATION.split("[[server]]").next().unwrap();
    let found = [
        "[[site".to_string(),
        CONFIGURATION.replace("id = \"0000000000000001\"\n", ""),
        CONFIGURATION.replace("10.1.0.0/16\"\nmore", "10.1.0.0/33\"\nmore"),
        format!("{site}{CONFIGURATION}"),
    ]
    .map(|text| MapServer::start(&text).map(|_| ()).unwrap_err());
    let wanted = [
        (StartError::Toml, 20),
        (StartError::Missing, 21),
        (StartError::BadValue, 22),
        (StartError::Repeated, 23),
    ];
    assert_eq!(found.map(|error| (error, error.number())), wanted);
    assert_eq!(StartError::Toml.to_string(), "the configuration is not valid TOML");
}

/// Two Map-Servers have nothing in common, and one is stopped while the other goes on.
#[test]
fn map_servers_are_apart() {
    let (mut first, mut second) = (started(), started());
    assert!(answer(&mut first, None, &map_register()).is_ok());
    assert!(answer(&mut second, None, &map_register()).is_ok());
    drop(first);
    assert_eq!(answer(&mut second, None, &map_register()), Err(Refusal::Replay));
}

/// What a Map-Server that holds nothing makes of a datagram agrees with what is read of it.
fn agrees(bytes: &[u8]) -> bool {
    let (mut server, mut buffer) = (started(), [0; 200]);
    let answer = server.receive(None, address("::1"), bytes, u64::MAX, &mut buffer);
    match (Datagram::parse(bytes).map(|datagram| datagram.message()), answer) {
        (Err(fault), answer) => assert_eq!(answer, Err(Refusal::Read { fault })),
        (Ok(message), Ok(Received::Accepted { pair: accepted, nonce, .. })) => {
            assert_eq!((pair(bytes), message.nonce), (Some(accepted), nonce));
            return true;
        }
        (Ok(message), answer) => {
            assert!(answer.is_err());
            assert_eq!(pair(bytes).is_some(), matches!(message.kind, Kind::MapRegister(_)));
        }
    }
    false
}

/// Where one byte is changed, nothing is accepted; where the tag is then mended, much is.
#[test]
fn changed_datagrams() {
    let (bytes, mut accepted) = (map_register(), 0);
    for at in 0..bytes.len() {
        for bit in 0..8 {
            let mut changed = bytes.clone();
            changed[at] ^= 1 << bit;
            assert!(!agrees(&changed));
            sign(&mut changed, SECRET).unwrap();
            accepted += usize::from(agrees(&changed));
        }
    }
    assert!((200..600).contains(&accepted), "{accepted}");
}
