//! What a Map-Server and a router of `examples/worked.toml` send for an EID-Prefix that a Map-Request asks for, and each error once, but
//! those of no memory, which `out_of_memory` has.
#![allow(missing_docs)]

mod common;

use common::{accept, address, bytes_of, map_register, CONFIGURATION, ROUTER_ADDRESS};
use lisp_registration::router::Router;
use lisp_registration::server::MapServer;
use lisp_registration::{EidPrefix, Reply, ReplyError, MESSAGE_ROOM};

const NONCE: u64 = 0x1122_3344_5566_7788;

/// Map-Replies, put together by hand (RFC 9301 section 5.4): of the worked record by proxy, of an address that no site has, of one whose
/// site has no router; of the router itself, to a probe, and of an address that it doesn't have.
const BY_PROXY: &str =
    "200000011122334455667788000005a001100000000000010a0100000164ff0000010001c0000201";
const NO_SITE: &str = "2000000111223344556677880000000f00082000000000010b000000";
const NOT_REGISTERED: &str = "2000000111223344556677880000000100102000000000010a010000";
const ITS_OWN: &str =
    "200000011122334455667788000005a001101000000000010a0100000164ff0000050001c0000201";
const TO_A_PROBE: &str =
    "280000011122334455667788000005a001101000000000010a0100000164ff0000070001c0000201";
const NONE_OF_ITS_OWN: &str = "2000000111223344556677880000000100083000000000010b000000";

fn eid(text: &str, mask_len: u8) -> EidPrefix {
    EidPrefix { address: address(text), mask_len }
}

fn bytes(digits: &str) -> Vec<u8> {
    bytes_of(digits).unwrap()
}

#[test]
fn a_map_server_replies_by_its_rows() {
    let (mut server, mut buffer) = (MapServer::start(CONFIGURATION).unwrap(), [0; MESSAGE_ROOM]);
    let asked = eid("10.1.0.9", 32);
    let reply = server.reply(asked, NONCE, false, 0, &mut buffer);
    assert_eq!(reply, Ok(Reply::Negative(&bytes(NOT_REGISTERED))));
    let reply = server.reply(eid("11.0.0.1", 32), NONCE, false, 0, &mut buffer);
    assert_eq!(reply, Ok(Reply::Negative(&bytes(NO_SITE))));
    assert_eq!(server.reply(asked, NONCE, true, 0, &mut buffer), Ok(Reply::Silent));
    accept(&mut server, &map_register(), 0);
    let reply = server.reply(asked, NONCE, false, 0, &mut buffer);
    assert_eq!(reply, Ok(Reply::Records(&bytes(BY_PROXY))));
}

#[test]
fn a_router_replies_by_its_records() {
    let mut router = Router::start(CONFIGURATION, "r1", None, 0).unwrap();
    let (asked, mut buffer) = (eid("10.1.0.9", 32), [0; MESSAGE_ROOM]);
    let reply = router.reply(asked, NONCE, false, None, &mut buffer);
    assert_eq!(reply, Ok(Reply::Records(&bytes(ITS_OWN))));
    let probed = Some(address("192.0.2.1"));
    let reply = router.reply(asked, NONCE, true, probed, &mut buffer);
    assert_eq!(reply, Ok(Reply::Records(&bytes(TO_A_PROBE))));
    let reply = router.reply(eid("11.0.0.1", 32), NONCE, false, None, &mut buffer);
    assert_eq!(reply, Ok(Reply::Negative(&bytes(NONE_OF_ITS_OWN))));
}

#[test]
fn a_map_request_goes_on_to_a_router_without_proxy() {
    let mut server = MapServer::start(CONFIGURATION).unwrap();
    let mut second = Router::start(CONFIGURATION, "r2", None, 0).unwrap();
    let (mut buffer, mut reply) = ([0; MESSAGE_ROOM], [0; MESSAGE_ROOM]);
    let due = second.due(0).unwrap();
    let register = second.send(due, 0, &mut buffer).unwrap().datagram;
    let from = address("127.0.0.22");
    assert!(server.receive(None, from, register, 0, &mut reply).is_ok());
    let replied = server.reply(eid("10.1.2.3", 32), NONCE, false, 0, &mut []);
    assert_eq!(replied, Ok(Reply::Forward(from)));
}

#[test]
fn each_error() {
    let mut server = MapServer::start(CONFIGURATION).unwrap();
    let mut router = Router::start(CONFIGURATION, "r1", None, 0).unwrap();
    let (asked, too_long) = (eid(ROUTER_ADDRESS, 32), eid(ROUTER_ADDRESS, 33));
    let mut buffer = [0xee; 27];
    let room = server.reply(asked, NONCE, false, 0, &mut buffer);
    assert_eq!(room, Err(ReplyError::Room));
    let room = router.reply(asked, NONCE, false, None, &mut buffer);
    assert_eq!(room, Err(ReplyError::Room));
    let field = server.reply(too_long, NONCE, false, 0, &mut buffer);
    assert_eq!(field, Err(ReplyError::Field));
    let field = router.reply(too_long, NONCE, false, None, &mut buffer);
    assert_eq!(field, Err(ReplyError::Field));
    assert_eq!(buffer, [0xee; 27]);
    let numbers = [ReplyError::Room, ReplyError::Field, ReplyError::OutOfMemory]
        .map(|error| (error.number(), error.to_string().is_empty()));
    assert_eq!(numbers, [(102, false), (103, false), (105, false)]);
}
