//! Addresses of the library and of Rust.

use lisp_registration_sys::{lisp_address, LISP_IPV4, LISP_IPV6};
use std::net::IpAddr;

/// An address as the library has it.
pub(crate) fn to_raw(address: IpAddr) -> lisp_address {
    match address {
        IpAddr::V4(address) => {
            let mut octets = [0; 16];
            octets[..4].copy_from_slice(&address.octets());
            lisp_address { family: LISP_IPV4, octets }
        }
        IpAddr::V6(address) => lisp_address { family: LISP_IPV6, octets: address.octets() },
    }
}

/// No address, as the library has it.
pub(crate) fn none() -> lisp_address {
    lisp_address::default()
}

/// An address that the library read: it is of one of two families.
pub(crate) fn from_raw(address: &lisp_address) -> IpAddr {
    match address.family {
        LISP_IPV4 => {
            let [a, b, c, d, ..] = address.octets;
            IpAddr::from([a, b, c, d])
        }
        LISP_IPV6 => IpAddr::from(address.octets),
        family => unreachable!("liblisp_registration.a read an address of family {family}"),
    }
}
