//! A router behind its handle.

use super::done;
use lisp_registration_sys::*;

/// A handle that holds a router, and stops it where it is dropped. Its pointer keeps it on one thread.
#[derive(Debug)]
pub(crate) struct RouterHandle(lisp_router);

impl RouterHandle {
    /// Starts a router of a configuration at a time, in ms, over the nonce that was saved last.
    pub(crate) fn start(
        configuration: &[u8],
        name: &[u8],
        kept: &lisp_nonce,
        now: u64,
    ) -> Result<RouterHandle, u16> {
        let mut router = lisp_router::default();
        // SAFETY: the pointers are of slices, of a reference and of a local that holds none, and live for the call. Any time is
        // allowed.
        let number = unsafe {
            lisp_registration_router_start(
                configuration.as_ptr(),
                configuration.len(),
                name.as_ptr(),
                name.len(),
                kept,
                now,
                &mut router,
            )
        };
        done(number, ())?;
        Ok(RouterHandle(router))
    }

    /// What is to be sent at a time, in ms.
    pub(crate) fn due(&mut self, now: u64) -> Result<lisp_due, u16> {
        let mut due = lisp_due::default();
        // SAFETY: the pointers are of a handle and of a local, both borrowed mutably for the call. Any time is allowed.
        let number = unsafe { lisp_registration_router_due(&mut self.0, now, &mut due) };
        done(number, due)
    }

    /// Makes the Map-Register of a part for a Map-Server at a time, in ms (RFC 9301 section 5.6).
    pub(crate) fn send(
        &mut self,
        server: usize,
        part: usize,
        now: u64,
        buffer: &mut [u8],
    ) -> Result<lisp_sent, u16> {
        let mut sent = lisp_sent::default();
        // SAFETY: the pointers are of a handle, of a slice and of a local, all borrowed mutably for the call, so that none overlaps
        // another. Any numbers and any time are allowed.
        let number = unsafe {
            lisp_registration_router_send(
                &mut self.0,
                server,
                part,
                now,
                buffer.as_mut_ptr(),
                buffer.len(),
                &mut sent,
            )
        };
        done(number, sent)
    }

    /// Receives a datagram that came from an address at a time, in ms (RFC 9301 section 5.7).
    pub(crate) fn receive(
        &mut self,
        from: &lisp_address,
        bytes: &[u8],
        now: u64,
        buffer: &mut [u8],
    ) -> Result<lisp_seen, u16> {
        let mut seen = lisp_seen::default();
        // SAFETY: the pointers are of references and slices that live for the call; the handle, the buffer and the local that
        // are written are borrowed mutably, and so overlap no other. Any time is allowed.
        let number = unsafe {
            lisp_registration_router_receive(
                &mut self.0,
                from,
                bytes.as_ptr(),
                bytes.len(),
                now,
                buffer.as_mut_ptr(),
                buffer.len(),
                &mut seen,
            )
        };
        done(number, seen)
    }

    /// What is sent for an EID-Prefix (RFC 9301 sections 5.4 and 8.2).
    pub(crate) fn reply(
        &mut self,
        eid: &lisp_prefix,
        nonce: u64,
        probe: bool,
        probed: &lisp_address,
        buffer: &mut [u8],
    ) -> Result<lisp_replied, u16> {
        let mut replied = lisp_replied::default();
        // SAFETY: the pointers are of references and of a slice that live for the call; the handle, the buffer and the local that
        // are written are borrowed mutably, and so overlap no other. Any numbers are allowed.
        let number = unsafe {
            lisp_registration_router_reply(
                &mut self.0,
                eid,
                nonce,
                probe.into(),
                probed,
                buffer.as_mut_ptr(),
                buffer.len(),
                &mut replied,
            )
        };
        done(number, replied)
    }

    /// Registers from a time on, in ms, the records that a configuration has for a name.
    pub(crate) fn change(
        &mut self,
        configuration: &[u8],
        name: &[u8],
        now: u64,
    ) -> Result<(), u16> {
        // SAFETY: the pointers are of slices that live for the call, and of a handle that is borrowed mutably. Any time is allowed.
        let number = unsafe {
            lisp_registration_router_change(
                configuration.as_ptr(),
                configuration.len(),
                name.as_ptr(),
                name.len(),
                now,
                &mut self.0,
            )
        };
        done(number, ())
    }
}

impl Drop for RouterHandle {
    fn drop(&mut self) {
        // SAFETY: the pointer is of a handle that is borrowed mutably, and only these functions change.
        unsafe { lisp_registration_router_stop(&mut self.0) }
    }
}

/// What the nonces of a router of a configuration are kept for.
pub(crate) fn router_pair(configuration: &[u8], name: &[u8]) -> Result<lisp_pair, u16> {
    let mut pair = lisp_pair::default();
    // SAFETY: the pointers are of slices and of a local, and live for the call.
    let number = unsafe {
        lisp_registration_router_pair(
            configuration.as_ptr(),
            configuration.len(),
            name.as_ptr(),
            name.len(),
            &mut pair,
        )
    };
    done(number, pair)
}
