//! Who answers for an address.

use super::row::mapping;
use crate::address;
use crate::record::RecordWithLocators;
use lisp_registration_sys::{
    lisp_answer, lisp_locator, LISP_ANSWER_FORWARD, LISP_ANSWER_NOT_REGISTERED,
    LISP_ANSWER_NO_SITE, LISP_ANSWER_REPLY,
};
use std::net::IpAddr;

/// Who answers for an address: what a Map-Server does with a Map-Request for it (RFC 9301 section 8.3).
#[derive(Clone, Debug, PartialEq, Eq, Hash)]
pub enum Answer {
    /// Nobody, and no site has the address: a negative Map-Reply for 15 minutes.
    NoSite,
    /// Nobody, though a site has the address: a negative Map-Reply for 1 minute.
    NotRegistered,
    /// The Map-Server, with this record: its router asked for proxy replies.
    Reply(RecordWithLocators),
    /// The router itself: the Map-Request is forwarded to this address, where its last Map-Register came from.
    Forward(IpAddr),
}

impl Answer {
    /// An answer that the library told; its locators are in front of the others.
    pub(super) fn from_raw(raw: &lisp_answer, locators: &[lisp_locator]) -> Answer {
        match raw.kind {
            LISP_ANSWER_NO_SITE => Answer::NoSite,
            LISP_ANSWER_NOT_REGISTERED => Answer::NotRegistered,
            LISP_ANSWER_REPLY => Answer::Reply(mapping(&raw.record, locators)),
            LISP_ANSWER_FORWARD => Answer::Forward(address::from_raw(&raw.to)),
            kind => unreachable!("liblisp_registration.a told an answer of kind {kind}"),
        }
    }
}
