//! The functions of the library over slices and references. Each answers its number where that is not `LISP_DONE`.
//!
//! A slice's pointer is never null and always aligned, its length is below `isize::MAX` bytes, and a mutable borrow overlaps
//! no other: so what the functions ask of pointers is kept by the types here.

mod router;
mod server;

pub(crate) use router::{router_pair, RouterHandle};
pub(crate) use server::{pair, ServerHandle};

use lisp_registration_sys::*;

/// Reads a message but its records (RFC 9301 sections 5.6 and 5.7).
pub(crate) fn read_message(bytes: &[u8]) -> Result<lisp_message, u16> {
    let mut message = lisp_message::default();
    // SAFETY: the pointers are of a slice and of a local, and live for the call.
    let number =
        unsafe { lisp_registration_read_message(bytes.as_ptr(), bytes.len(), &mut message) };
    done(number, message)
}

/// Reads the record that begins at byte `at`, but its locators (RFC 9301 section 5.4).
pub(crate) fn read_record(bytes: &[u8], at: usize) -> Result<lisp_record, u16> {
    let mut record = lisp_record::default();
    // SAFETY: the pointers are of a slice and of a local, and live for the call. Any `at` is allowed.
    let number =
        unsafe { lisp_registration_read_record(bytes.as_ptr(), bytes.len(), at, &mut record) };
    done(number, record)
}

/// Reads the locator that begins at byte `at` (RFC 9301 section 5.4).
pub(crate) fn read_locator(bytes: &[u8], at: usize) -> Result<lisp_locator, u16> {
    let mut locator = lisp_locator::default();
    // SAFETY: the pointers are of a slice and of a local, and live for the call. Any `at` is allowed.
    let number =
        unsafe { lisp_registration_read_locator(bytes.as_ptr(), bytes.len(), at, &mut locator) };
    done(number, locator)
}

/// Whether the Authentication Data is the tag under a secret (RFC 9301 section 5.6).
pub(crate) fn authentic(bytes: &[u8], secret: &[u8]) -> bool {
    // SAFETY: the pointers are of two slices, which are only read, and live for the call.
    unsafe {
        lisp_registration_authentic(bytes.as_ptr(), bytes.len(), secret.as_ptr(), secret.len())
    }
}

/// Puts the tag under a secret into the Authentication Data (RFC 9301 section 5.6).
pub(crate) fn sign(bytes: &mut [u8], secret: &[u8]) -> Result<(), u16> {
    // SAFETY: the pointers are of two slices that live for the call; the first is borrowed mutably, and so overlaps no other.
    let number = unsafe {
        lisp_registration_sign(bytes.as_mut_ptr(), bytes.len(), secret.as_ptr(), secret.len())
    };
    done(number, ())
}

/// Writes a message into a buffer (RFC 9301 sections 5.6 and 5.7): its length; or the number, and at `LISP_ROOM` the length that
/// the buffer needs.
pub(crate) fn write_message(
    message: &lisp_message,
    records: &[lisp_record],
    locators: &[lisp_locator],
    secret: &[u8],
    buffer: &mut [u8],
) -> Result<usize, (u16, usize)> {
    let mut length = 0;
    // SAFETY: the pointers are of references and slices that live for the call; the buffer and the local that are written are
    // borrowed mutably, and so overlap no other.
    let number = unsafe {
        lisp_registration_write_message(
            message,
            records.as_ptr(),
            records.len(),
            locators.as_ptr(),
            locators.len(),
            secret.as_ptr(),
            secret.len(),
            buffer.as_mut_ptr(),
            buffer.len(),
            &mut length,
        )
    };
    done(number, length).map_err(|number| (number, length))
}

fn done<T>(number: u16, value: T) -> Result<T, u16> {
    match number {
        LISP_DONE => Ok(value),
        _ => Err(number),
    }
}
