//! Records and their locators.

use crate::address;
use lisp_registration_sys::{lisp_locator, lisp_record};
use std::net::IpAddr;

/// A record but its locators (RFC 9301 section 5.4).
#[derive(Clone, Copy, Debug, PartialEq, Eq, Hash)]
pub struct Record {
    /// The first address of the EID-Prefix. Bits past the mask are 0, and are cleared where the record is written.
    pub eid: IpAddr,
    /// The EID mask-len: how many bits the addresses of the EID-Prefix share, 0 to 32 or 128.
    pub mask_len: u8,
    /// How long a cache may keep the record, in minutes.
    pub ttl: u32,
    /// The ACT bits, 0 to 7: what to do where the record has no locators.
    pub act: u8,
    /// A: the record is its owner's own.
    pub authoritative: bool,
    /// The Map-Version number, 0 to 4095.
    pub version: u16,
}

/// A locator of a record (RFC 9301 section 5.4).
#[derive(Clone, Copy, Debug, PartialEq, Eq, Hash)]
pub struct Locator {
    /// The locator itself.
    pub address: IpAddr,
    /// Unicast priority: less is preferred, 255 is never used.
    pub priority: u8,
    /// The share of unicast traffic among locators of one priority.
    pub weight: u8,
    /// Multicast priority.
    pub multicast_priority: u8,
    /// Multicast weight.
    pub multicast_weight: u8,
    /// L: the locator is of the router that sent the record.
    pub local: bool,
    /// p: the locator is probed.
    pub probe: bool,
    /// R: the sender can reach the locator.
    pub reachable: bool,
}

/// A record and its locators (RFC 9301 section 5.4).
#[derive(Clone, Debug, PartialEq, Eq, Hash)]
pub struct RecordWithLocators {
    /// The record.
    pub record: Record,
    /// Its locators, at most 255.
    pub locators: Vec<Locator>,
}

impl Record {
    /// The record as the library has it; what is read only is 0.
    pub(crate) fn to_raw(self, locator_count: u8) -> lisp_record {
        lisp_record {
            ttl: self.ttl,
            version: self.version,
            act: self.act,
            authoritative: self.authoritative.into(),
            mask_len: self.mask_len,
            locator_count,
            eid: address::to_raw(self.eid),
            ..lisp_record::default()
        }
    }

    /// A record that the library read.
    pub(crate) fn from_raw(raw: &lisp_record) -> Record {
        Record {
            eid: address::from_raw(&raw.eid),
            mask_len: raw.mask_len,
            ttl: raw.ttl,
            act: raw.act,
            authoritative: raw.authoritative != 0,
            version: raw.version,
        }
    }
}

impl Locator {
    /// The locator as the library has it; what is read only is 0.
    pub(crate) fn to_raw(self) -> lisp_locator {
        lisp_locator {
            priority: self.priority,
            weight: self.weight,
            m_priority: self.multicast_priority,
            m_weight: self.multicast_weight,
            local: self.local.into(),
            probe: self.probe.into(),
            reachable: self.reachable.into(),
            address: address::to_raw(self.address),
            ..lisp_locator::default()
        }
    }

    /// A locator that the library read.
    pub(crate) fn from_raw(raw: &lisp_locator) -> Locator {
        Locator {
            address: address::from_raw(&raw.address),
            priority: raw.priority,
            weight: raw.weight,
            multicast_priority: raw.m_priority,
            multicast_weight: raw.m_weight,
            local: raw.local != 0,
            probe: raw.probe != 0,
            reachable: raw.reachable != 0,
        }
    }
}
