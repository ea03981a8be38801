//! Notices of a Map-Server over `examples/worked.toml`: made, sent again, acknowledged, and each error once, but those of no
//! memory, which `out_of_memory` has.
#![allow(missing_docs)]

mod common;

use common::{
    accept, address, locator, map_register, notification, record, register, CONFIGURATION,
    FIRST_NOTICE, LAST_MOMENT, ROUTER, ROUTER_ADDRESS, SECRET,
};
use lisp_registration::server::{MapServer, NoticeError, Received, Refusal, RouterId};
use lisp_registration::{write, Datagram, Kind, Message, RecordWithLocators, MESSAGE_ROOM};

/// How long after it was sent a notice is due again, in ms; after the last one it isn't.
const PAUSES_MS: [u64; 6] = [3_000, 3_000, 3_000, 6_000, 12_000, 24_000];

/// A Map-Server that accepted the worked Map-Register at time 0.
fn registered() -> MapServer {
    let mut server = MapServer::start(CONFIGURATION).unwrap();
    accept(&mut server, &map_register(), 0);
    server
}

/// The nonce and the datagram of a notice that goes to the first router.
fn notice(
    server: &mut MapServer,
    kept: Option<u64>,
    now_ms: u64,
) -> Result<(u64, Vec<u8>), NoticeError> {
    let mut buffer = [0; MESSAGE_ROOM];
    let notice = server.notify(kept, ROUTER, now_ms, &mut buffer)?;
    assert_eq!(notice.to, address(ROUTER_ADDRESS));
    Ok((notice.nonce, notice.datagram.to_vec()))
}

/// The datagram of a notice that goes to the first router again.
fn again(server: &mut MapServer, now_ms: u64) -> Result<Vec<u8>, NoticeError> {
    let mut buffer = [0; MESSAGE_ROOM];
    let resent = server.resend(ROUTER, now_ms, &mut buffer)?;
    assert_eq!(resent.to, address(ROUTER_ADDRESS));
    Ok(resent.datagram.to_vec())
}

/// A Map-Notify-Ack without records, under a nonce.
fn acknowledgement(nonce: u64) -> Vec<u8> {
    write(&Message { kind: Kind::MapNotifyAck, nonce, ..notification() }, &[], SECRET).unwrap()
}

/// Has the Map-Server receive a datagram of the first router.
fn acknowledge(server: &mut MapServer, datagram: &[u8]) -> Result<u64, Refusal> {
    match server.receive(None, address(ROUTER_ADDRESS), datagram, 0, &mut [0; 200])? {
        Received::NoticeDone { site, xtr, nonce } => {
            assert_eq!(RouterId { site, xtr }, ROUTER);
            Ok(nonce)
        }
        Received::Accepted { .. } => panic!("a Map-Notify-Ack was accepted as a Map-Register"),
    }
}

#[test]
fn a_notice_tells_what_is_held() {
    let (nonce, bytes) = notice(&mut registered(), None, 0).unwrap();
    let datagram = Datagram::parse(&bytes).unwrap();
    assert_eq!(nonce, FIRST_NOTICE);
    assert_eq!(datagram.message(), Message { nonce, ..notification() });
    assert!(datagram.is_authentic(SECRET));
    let records: Vec<RecordWithLocators> = datagram.records().map(Into::into).collect();
    assert_eq!(records, [record()]);
}

/// The nonces of notices rise above the one that was kept, and above those since the start.
#[test]
fn nonces_of_notices_rise() {
    let mut server = registered();
    for kept in [None, Some(0), Some(FIRST_NOTICE - 1)] {
        server.restart();
        accept(&mut server, &map_register(), 0);
        assert_eq!(notice(&mut server, kept, 0).unwrap().0, FIRST_NOTICE);
        assert_eq!(notice(&mut server, kept, 0).unwrap().0, FIRST_NOTICE + 1);
    }
    server.restart();
    accept(&mut server, &map_register(), 0);
    assert_eq!(notice(&mut server, Some(FIRST_NOTICE + 7), 0).unwrap().0, FIRST_NOTICE + 8);
}

#[test]
fn a_notice_is_due_again_until_it_is_acknowledged() {
    let mut server = registered();
    assert_eq!(server.due(LAST_MOMENT), None);
    let (nonce, bytes) = notice(&mut server, None, 0).unwrap();
    let mut now = 0;
    for pause in PAUSES_MS {
        assert_eq!(server.due(now + pause - 1), None);
        assert_eq!(again(&mut server, now + pause - 1), Err(NoticeError::NotDue));
        now += pause;
        assert_eq!(server.due(now), Some(ROUTER));
        assert_eq!(again(&mut server, now).as_ref(), Ok(&bytes));
    }
    assert_eq!(server.due(LAST_MOMENT), None);
    assert_eq!(acknowledge(&mut server, &acknowledgement(nonce)), Ok(nonce));
    assert_eq!(acknowledge(&mut server, &acknowledgement(nonce)), Err(Refusal::NoNotice));
}

#[test]
fn an_acknowledged_notice_is_not_due() {
    let mut server = registered();
    let (nonce, _) = notice(&mut server, None, 0).unwrap();
    assert_eq!(acknowledge(&mut server, &acknowledgement(nonce + 1)), Err(Refusal::NoNotice));
    assert_eq!(server.due(3_000), Some(ROUTER));
    assert_eq!(acknowledge(&mut server, &acknowledgement(nonce)), Ok(nonce));
    assert_eq!(server.due(3_000), None);
}

#[test]
fn a_notice_takes_the_place_of_an_earlier_one() {
    let mut server = registered();
    let (earlier, _) = notice(&mut server, None, 0).unwrap();
    let (later, bytes) = notice(&mut server, None, 1_000).unwrap();
    assert_eq!(acknowledge(&mut server, &acknowledgement(earlier)), Err(Refusal::NoNotice));
    assert_eq!((server.due(3_000), server.due(4_000)), (None, Some(ROUTER)));
    assert_eq!(again(&mut server, 4_000), Ok(bytes));
    assert_eq!(acknowledge(&mut server, &acknowledgement(later)), Ok(later));
}

#[test]
fn a_restart_ends_all_notices() {
    let mut server = registered();
    let (nonce, _) = notice(&mut server, None, 0).unwrap();
    server.restart();
    assert_eq!(server.due(LAST_MOMENT), None);
    assert_eq!(acknowledge(&mut server, &acknowledgement(nonce)), Err(Refusal::NoNotice));
}

/// Each error, over a Map-Server that is left as it was.
#[test]
fn errors_of_notices() {
    let mut server = registered();
    let small = &mut [0xee; MESSAGE_ROOM - 1];
    let room = NoticeError::Room { needed: MESSAGE_ROOM };
    assert_eq!(server.notify(None, ROUTER, LAST_MOMENT + 1, small), Err(room));
    assert_eq!(server.resend(ROUTER, LAST_MOMENT + 1, small), Err(room));
    assert!(small.iter().all(|&byte| byte == 0xee));
    assert_eq!(notice(&mut server, None, LAST_MOMENT + 1), Err(NoticeError::Clock));
    assert_eq!(again(&mut server, LAST_MOMENT + 1), Err(NoticeError::Clock));
    assert_eq!(notice(&mut server, Some(u64::MAX), 0), Err(NoticeError::NonceSpent));
    assert_eq!(again(&mut server, LAST_MOMENT), Err(NoticeError::NotDue));
    let (other, buffer) = (RouterId { site: 2, ..ROUTER }, &mut [0; MESSAGE_ROOM]);
    assert_eq!(server.notify(None, other, 0, buffer), Err(NoticeError::NotRegistered));
    assert_eq!(notice(&mut server, None, 180_000), Err(NoticeError::NotRegistered));
    assert_eq!(notice(&mut server, None, 0).unwrap().0, FIRST_NOTICE);
    let errors = [room, NoticeError::Clock, NoticeError::NonceSpent, NoticeError::NotDue];
    assert_eq!(errors.map(NoticeError::number), [102, 73, 64, 67]);
    assert_eq!(NoticeError::NotRegistered.number(), 62);
    assert_eq!(room.to_string(), "the buffer needs room for 16440 bytes");
}

/// A router whose rows have more bytes than one message gets no notice.
#[test]
fn a_notice_may_be_too_large() {
    let mut server = registered();
    for (nonce, last) in (2..).zip(0..5) {
        let mut entry = record();
        (entry.record.eid, entry.record.mask_len) = ([10, 1, 0, last].into(), 32);
        entry.locators = vec![locator("2001:db8::1"); 150];
        accept(&mut server, &register(nonce, &[entry]), 0);
    }
    assert_eq!(notice(&mut server, None, 0), Err(NoticeError::TooLarge));
    assert_eq!(NoticeError::TooLarge.number(), 63);
}
