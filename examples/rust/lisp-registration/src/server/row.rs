//! The rows that a Map-Server holds.

use super::{MapServer, ROOM};
use crate::address;
use crate::pair::RouterId;
use crate::record::{Locator, Record, RecordWithLocators};
use lisp_registration_sys::{lisp_locator, lisp_record, lisp_row, LISP_LOCATORS};
use std::iter::FusedIterator;
use std::net::IpAddr;

/// A row that a Map-Server holds: a record that a router registered, and the Map-Register that it came with last (RFC 9301
/// section 8.2).
#[derive(Clone, Debug, PartialEq, Eq, Hash)]
pub struct Row {
    /// The router.
    pub router: RouterId,
    /// The record, with its locators.
    pub mapping: RecordWithLocators,
    /// The Key ID of the Map-Register.
    pub key_id: u8,
    /// Its nonce.
    pub nonce: u64,
    /// Its bit P: the Map-Server replies to Map-Requests for the router.
    pub proxy: bool,
    /// Where it came from.
    pub from: IpAddr,
    /// When it was accepted, in ms.
    pub accepted_ms: u64,
    /// For how many ms from then on the row is alive.
    pub life_ms: u64,
}

/// The rows of a Map-Server that are alive at a time; see [`MapServer::rows`].
#[derive(Debug)]
pub struct Rows<'a> {
    server: &'a mut MapServer,
    now_ms: u64,
    place: usize,
    locators: Vec<lisp_locator>,
}

impl<'a> Rows<'a> {
    pub(super) fn new(server: &'a mut MapServer, now_ms: u64) -> Rows<'a> {
        Rows { server, now_ms, place: 0, locators: room_for_locators() }
    }
}

impl Iterator for Rows<'_> {
    type Item = Row;

    fn next(&mut self) -> Option<Row> {
        let row = self.server.handle.row(self.now_ms, &mut self.place, &mut self.locators);
        Row::from_raw(&row.expect(ROOM), &self.locators)
    }
}

impl FusedIterator for Rows<'_> {}

impl Row {
    /// A row that the library told, if it told one; its locators are in front of the others.
    fn from_raw(raw: &lisp_row, locators: &[lisp_locator]) -> Option<Row> {
        (raw.is_there != 0).then(|| Row {
            router: RouterId { site: raw.site, xtr: raw.xtr },
            mapping: mapping(&raw.record, locators),
            key_id: raw.key_id,
            nonce: raw.nonce,
            proxy: raw.proxy != 0,
            from: address::from_raw(&raw.from),
            accepted_ms: raw.accepted,
            life_ms: raw.life,
        })
    }
}

/// Room for the locators of any record.
pub(super) fn room_for_locators() -> Vec<lisp_locator> {
    vec![lisp_locator::default(); LISP_LOCATORS]
}

/// A record that the library told; its locators are in front of the others.
pub(super) fn mapping(record: &lisp_record, locators: &[lisp_locator]) -> RecordWithLocators {
    let own = &locators[..record.locator_count.into()];
    let locators = own.iter().map(Locator::from_raw).collect();
    RecordWithLocators { record: Record::from_raw(record), locators }
}
