//! The rows of a Map-Server over `examples/worked.toml`, who answers by them, and how they die.
#![allow(missing_docs)]

mod common;

use common::{
    accept, address, locator, map_register, record, register, registration, CONFIGURATION,
    LAST_MOMENT, ROUTER, ROUTER_ADDRESS, SECRET,
};
use lisp_registration::server::{Answer, ClockError, MapServer, Row};
use lisp_registration::{write, Kind, Message, RecordWithLocators, Registration};

/// How long a row is alive whose router doesn't ask for the TTL of its records (docs/PROTOCOL.md), in ms.
const LIFE_MS: u64 = 180_000;

fn started() -> MapServer {
    MapServer::start(CONFIGURATION).unwrap()
}

/// A Map-Server that accepted the worked Map-Register at a time.
fn registered(now_ms: u64) -> MapServer {
    let mut server = started();
    accept(&mut server, &map_register(), now_ms);
    server
}

/// The row of the worked Map-Register, accepted at a time.
fn row(accepted_ms: u64) -> Row {
    Row {
        router: ROUTER,
        mapping: record(),
        key_id: 1,
        nonce: 1,
        proxy: true,
        from: address(ROUTER_ADDRESS),
        accepted_ms,
        life_ms: LIFE_MS,
    }
}

fn rows(server: &mut MapServer, now_ms: u64) -> Vec<Row> {
    server.rows(now_ms).collect()
}

/// The worked record for another prefix, of so many locators.
fn of_host(last: u8, locators: usize) -> RecordWithLocators {
    let mut entry = record();
    (entry.record.eid, entry.record.mask_len) = ([10, 1, 0, last].into(), 32);
    entry.locators = vec![locator("2001:db8::1"); locators];
    entry
}

/// A Map-Register of the worked one's router, without proxy replies.
fn without_proxy() -> Vec<u8> {
    let Kind::MapRegister(worked) = registration().kind else { unreachable!() };
    let kind = Kind::MapRegister(Registration { proxy: false, ..worked });
    write(&Message { kind, ..registration() }, &[record()], SECRET).unwrap()
}

#[test]
fn a_new_map_server_holds_no_rows() {
    assert_eq!(rows(&mut started(), 0), []);
}

#[test]
fn the_row_of_the_worked_map_register() {
    let mut server = registered(1000);
    assert_eq!(rows(&mut server, 1000), [row(1000)]);
    let mut rows = server.rows(1000);
    assert_eq!((rows.next(), rows.next(), rows.next()), (Some(row(1000)), None, None));
}

/// Each row comes once, also of a record with as many locators as there can be, or none.
#[test]
fn each_row_comes_once() {
    let entries: Vec<RecordWithLocators> = (0..100)
        .map(|last| of_host(last, usize::from(last % 4)))
        .chain([of_host(100, 255)])
        .collect();
    let mut server = started();
    for (nonce, entry) in (1..).zip(&entries) {
        accept(&mut server, &register(nonce, std::slice::from_ref(entry)), 0);
    }
    let mut found: Vec<RecordWithLocators> = server.rows(0).map(|row| row.mapping).collect();
    found.sort_by_key(|entry| entry.record.eid);
    assert_eq!(found, entries);
}

#[test]
fn a_row_is_alive_for_its_life_alone() {
    let mut server = registered(1000);
    assert_eq!(rows(&mut server, 1000 + LIFE_MS - 1), [row(1000)]);
    assert_eq!(rows(&mut server, 1000 + LIFE_MS), []);
    assert_eq!(rows(&mut server, u64::MAX), []);
}

#[test]
fn dead_rows_are_dropped() {
    let mut server = registered(1000);
    assert_eq!(server.expire(1000 + LIFE_MS - 1), Ok(()));
    assert_eq!(rows(&mut server, 1000), [row(1000)]);
    assert_eq!(server.expire(1000 + LIFE_MS), Ok(()));
    assert_eq!(rows(&mut server, 1000), []);
}

#[test]
fn a_time_has_a_bound() {
    let mut server = registered(1000);
    for now in [LAST_MOMENT + 1, u64::MAX] {
        assert_eq!(server.expire(now), Err(ClockError));
    }
    assert_eq!(rows(&mut server, 1000), [row(1000)]);
    assert_eq!(server.expire(LAST_MOMENT), Ok(()));
    assert_eq!(rows(&mut server, 1000), []);
    assert_eq!(
        (ClockError.number(), ClockError.to_string()),
        (73, "the time is above 2^62 ms".into())
    );
}

#[test]
fn who_answers() {
    let (inside, outside) = (address("10.1.255.255"), address("10.2.0.0"));
    let mut server = registered(0);
    assert_eq!(server.answer(inside, 0), Answer::Reply(record()));
    assert_eq!(server.answer(outside, 0), Answer::NoSite);
    assert_eq!(server.answer(address("::1"), 0), Answer::NoSite);
    assert_eq!(server.answer(inside, LIFE_MS), Answer::NotRegistered);
    let mut server = started();
    assert_eq!(server.answer(inside, 0), Answer::NotRegistered);
    accept(&mut server, &without_proxy(), 0);
    assert_eq!(server.answer(inside, 0), Answer::Forward(address(ROUTER_ADDRESS)));
}

/// Of several rows the one with the longest prefix answers.
#[test]
fn the_longest_prefix_answers() {
    let mut server = registered(0);
    let longer = of_host(7, 255);
    accept(&mut server, &register(2, std::slice::from_ref(&longer)), 0);
    assert_eq!(server.answer(address("10.1.0.7"), 0), Answer::Reply(longer));
    assert_eq!(server.answer(address("10.1.0.8"), 0), Answer::Reply(record()));
}

#[test]
fn a_restart_drops_all_rows() {
    let mut server = registered(0);
    server.restart();
    assert_eq!(rows(&mut server, 0), []);
    assert_eq!(server.answer(address("10.1.0.0"), 0), Answer::NotRegistered);
}
