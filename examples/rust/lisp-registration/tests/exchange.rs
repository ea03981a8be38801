//! The worked exchange of a router and a Map-Server in one process: the program between them keeps the nonces of both, carries their
//! datagrams and has the time.
#![allow(missing_docs)]

mod common;

use common::{
    address, map_notify, map_register, record, CONFIGURATION, FIRST_NOTICE, PAIR, ROUTER,
    ROUTER_ADDRESS, SERVER_ADDRESSES,
};
use lisp_registration::router::{Due, Router, Seen};
use lisp_registration::server::{self, Answer, MapServer, Pair, Received, Refusal};
use lisp_registration::{router, MESSAGE_ROOM};
use std::collections::HashMap;
use std::net::IpAddr;

/// A router and a Map-Server, and what the program saved for each of them.
struct Program {
    router: Router,
    server: MapServer,
    sent: Option<u64>,
    received: HashMap<Pair, u64>,
    notices: Option<u64>,
}

/// What a Map-Server answered to a datagram: whether it accepted it, and its reply.
#[derive(Debug, PartialEq, Eq)]
struct Answered {
    accepted: bool,
    reply: Option<Vec<u8>>,
}

impl Program {
    fn new() -> Program {
        Program {
            router: Router::start(CONFIGURATION, "r1", None, 0).unwrap(),
            server: MapServer::start(CONFIGURATION).unwrap(),
            sent: None,
            received: HashMap::new(),
            notices: None,
        }
    }

    /// The Map-Registers that the router sends at a time, with the addresses of their Map-Servers; what they need is saved before.
    fn sends(&mut self, now_ms: u64) -> Vec<(IpAddr, Vec<u8>)> {
        let (mut datagrams, mut buffer) = (Vec::new(), [0; MESSAGE_ROOM]);
        while let Some(due) = self.router.due(now_ms) {
            let sent = self.router.send(due, now_ms, &mut buffer).unwrap();
            self.sent = sent.save.or(self.sent);
            datagrams.push((sent.to, sent.datagram.to_vec()));
        }
        datagrams
    }

    /// The Map-Server receives a datagram of the router; an accepted nonce is saved before the answer is sent.
    fn arrives(&mut self, datagram: &[u8], now_ms: u64) -> Result<Answered, Refusal> {
        let kept = server::pair(datagram).and_then(|pair| self.received.get(&pair).copied());
        let mut buffer = vec![0; datagram.len()];
        let from = address(ROUTER_ADDRESS);
        match self.server.receive(kept, from, datagram, now_ms, &mut buffer)? {
            Received::Accepted { pair, nonce, reply } => {
                self.received.insert(pair, nonce);
                Ok(Answered { accepted: true, reply: reply.map(<[u8]>::to_vec) })
            }
            Received::NoticeDone { .. } => Ok(Answered { accepted: false, reply: None }),
        }
    }

    /// The Map-Server makes a notice for the router at a time; its nonce is saved before it is sent.
    fn notifies(&mut self, now_ms: u64) -> Vec<u8> {
        let mut buffer = [0; MESSAGE_ROOM];
        let notice = self.server.notify(self.notices, ROUTER, now_ms, &mut buffer).unwrap();
        self.notices = Some(notice.nonce);
        assert_eq!(notice.to, address(ROUTER_ADDRESS));
        notice.datagram.to_vec()
    }

    /// The router and the Map-Server begin anew, as after a crash, over what was saved.
    fn crashes(&mut self, now_ms: u64) {
        self.router = Router::start(CONFIGURATION, "r1", self.sent, now_ms).unwrap();
        self.server = MapServer::start(CONFIGURATION).unwrap();
    }
}

/// What the router makes of a datagram of its first Map-Server: the reply to a notice, none to an acknowledgement.
fn takes(router: &mut Router, datagram: &[u8]) -> Option<Vec<u8>> {
    let mut buffer = vec![0; datagram.len()];
    match router.receive(address(SERVER_ADDRESSES[0]), datagram, 0, &mut buffer).unwrap() {
        Seen::Acknowledged { register, nonce } => {
            assert_eq!((register, nonce), (Due { server: 0, part: 0 }, 1));
            None
        }
        Seen::Notice { server, nonce, reply } => {
            assert_eq!((server, nonce), (0, FIRST_NOTICE));
            Some(reply.to_vec())
        }
    }
}

#[test]
fn a_registration_is_acknowledged() {
    let mut program = Program::new();
    assert_eq!(router::pair(CONFIGURATION, "r1"), Ok(PAIR));
    let datagrams = program.sends(0);
    assert_eq!(
        datagrams.iter().map(|(to, _)| *to).collect::<Vec<_>>(),
        SERVER_ADDRESSES.map(address)
    );
    assert_eq!((&datagrams[0].1, program.sent), (&map_register(), Some(2)));
    let answered = Answered { accepted: true, reply: Some(map_notify()) };
    assert_eq!(program.arrives(&datagrams[0].1, 0), Ok(answered));
    assert_eq!(program.received, HashMap::from([(PAIR, 1)]));
    assert_eq!(takes(&mut program.router, &map_notify()), None);
    assert_eq!(program.arrives(&datagrams[0].1, 1), Err(Refusal::Replay));
    assert_eq!(program.server.answer(address("10.1.2.3"), 1), Answer::Reply(record()));
}

#[test]
fn a_notice_is_acknowledged() {
    let mut program = Program::new();
    let datagrams = program.sends(0);
    let _ = program.arrives(&datagrams[0].1, 0).unwrap();
    let notice = program.notifies(0);
    assert_eq!(program.server.due(3_000), Some(ROUTER));
    let acknowledgement = takes(&mut program.router, &notice).unwrap();
    let ended = Answered { accepted: false, reply: None };
    assert_eq!(program.arrives(&acknowledgement, 1_000), Ok(ended));
    assert_eq!(program.server.due(3_000), None);
}

/// After a crash old datagrams are refused, and new ones are accepted at once, since both sides saved their nonces.
#[test]
fn what_was_saved_outlives_a_crash() {
    let mut program = Program::new();
    let before = program.sends(0);
    let _ = program.arrives(&before[0].1, 0).unwrap();
    let _ = program.notifies(0);
    program.crashes(10_000);
    assert_eq!(program.arrives(&before[0].1, 10_000), Err(Refusal::Replay));
    assert_eq!(program.server.rows(10_000).count(), 0);
    let after = program.sends(10_000);
    assert!(program.arrives(&after[0].1, 10_000).unwrap().accepted);
    assert_eq!((program.received[&PAIR], program.sent), (3, Some(4)));
    let _ = program.notifies(10_000);
    assert_eq!(program.notices, Some(FIRST_NOTICE + 1));
}

/// A program that saves nothing: the Map-Register that was accepted before the crash is accepted again.
#[test]
fn who_does_not_save_accepts_a_replay() {
    let mut program = Program::new();
    let datagrams = program.sends(0);
    let _ = program.arrives(&datagrams[0].1, 0).unwrap();
    program.received.clear();
    program.crashes(0);
    assert!(program.arrives(&datagrams[0].1, 0).unwrap().accepted);
}

/// As long as both go on, the row stays alive, and its router is due again each minute; where the router stops, the row dies.
#[test]
fn a_registration_is_renewed() {
    let mut program = Program::new();
    for minute in 0..5 {
        let now = minute * 60_000;
        for (to, datagram) in program.sends(now) {
            if to == address(SERVER_ADDRESSES[0]) {
                let answered = program.arrives(&datagram, now).unwrap();
                let from = address(SERVER_ADDRESSES[0]);
                let notify = answered.reply.unwrap();
                let buffer = &mut [0; 60];
                let seen = program.router.receive(from, &notify, now, buffer).unwrap();
                assert!(matches!(seen, Seen::Acknowledged { .. }));
            }
        }
        assert_eq!(program.server.rows(now + 60_000).count(), 1);
    }
    let (last, life) = (4 * 60_000, 180_000);
    assert_eq!(program.server.rows(last + life - 1).count(), 1);
    program.server.expire(last + life).unwrap();
    assert_eq!(program.server.rows(last).count(), 0);
}
