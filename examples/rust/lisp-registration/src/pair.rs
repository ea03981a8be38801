//! Routers, what their nonces are kept for, and these nonces.

use lisp_registration_sys::{lisp_nonce, lisp_pair, lisp_router_id};

/// What a nonce is kept for: a router, and the Key ID that it used.
#[derive(Clone, Copy, Debug, PartialEq, Eq, Hash, PartialOrd, Ord)]
pub struct Pair {
    /// The Site-ID of the router.
    pub site: u64,
    /// Its xTR-ID.
    pub xtr: [u8; 16],
    /// The Key ID.
    pub key_id: u8,
}

/// A router.
#[derive(Clone, Copy, Debug, PartialEq, Eq, Hash, PartialOrd, Ord)]
pub struct RouterId {
    /// Its Site-ID.
    pub site: u64,
    /// Its xTR-ID.
    pub xtr: [u8; 16],
}

impl Pair {
    /// A pair that the library named, if it named one.
    pub(crate) fn from_raw(raw: &lisp_pair) -> Option<Pair> {
        let &lisp_pair { site, xtr, key_id, is_there } = raw;
        (is_there != 0).then_some(Pair { site, xtr, key_id })
    }
}

impl RouterId {
    /// The router as the library has it.
    pub(crate) fn to_raw(self) -> lisp_router_id {
        lisp_router_id { site: self.site, xtr: self.xtr, is_there: 1 }
    }

    /// A router that the library named, if it named one.
    pub(crate) fn from_raw(raw: &lisp_router_id) -> Option<RouterId> {
        let &lisp_router_id { site, xtr, is_there } = raw;
        (is_there != 0).then_some(RouterId { site, xtr })
    }
}

/// A nonce that the program kept, or none, as the library has it.
pub(crate) fn kept_to_raw(kept: Option<u64>) -> lisp_nonce {
    lisp_nonce { nonce: kept.unwrap_or(0), is_there: kept.is_some().into() }
}
