//! A Map-Server behind its handle.

use super::done;
use lisp_registration_sys::*;

/// A handle that holds a Map-Server, and stops it where it is dropped. Its pointer keeps it on one thread.
#[derive(Debug)]
pub(crate) struct ServerHandle(lisp_server);

impl ServerHandle {
    /// Starts a Map-Server of the sites of a configuration.
    pub(crate) fn start(configuration: &[u8]) -> Result<ServerHandle, u16> {
        let mut server = lisp_server::default();
        // SAFETY: the pointers are of a slice and of a local that holds none, and live for the call.
        let number = unsafe {
            lisp_registration_server_start(configuration.as_ptr(), configuration.len(), &mut server)
        };
        done(number, ())?;
        Ok(ServerHandle(server))
    }

    /// Starts the Map-Server again, as after a crash.
    pub(crate) fn restart(&mut self) -> Result<(), u16> {
        // SAFETY: the pointer is of a handle that is borrowed mutably, and only these functions change.
        let number = unsafe { lisp_registration_server_restart(&mut self.0) };
        done(number, ())
    }

    /// Takes the sites of a configuration; whether the Map-Server goes on with what it held.
    pub(crate) fn reload(&mut self, configuration: &[u8]) -> Result<bool, u16> {
        let mut goes_on = 0;
        // SAFETY: the pointers are of a slice that lives for the call, of a handle that is borrowed mutably, and of a local.
        let number = unsafe {
            lisp_registration_server_reload(
                configuration.as_ptr(),
                configuration.len(),
                &mut self.0,
                &mut goes_on,
            )
        };
        done(number, goes_on != 0)
    }

    /// Receives a datagram (RFC 9301 section 8.2).
    pub(crate) fn receive(
        &mut self,
        kept: &lisp_nonce,
        from: &lisp_address,
        bytes: &[u8],
        now: u64,
        buffer: &mut [u8],
    ) -> Result<lisp_received, u16> {
        let mut received = lisp_received::default();
        // SAFETY: the pointers are of references and slices that live for the call; the handle, the buffer and the local that
        // are written are borrowed mutably, and so overlap no other. Any time is allowed.
        let number = unsafe {
            lisp_registration_server_receive(
                &mut self.0,
                kept,
                from,
                bytes.as_ptr(),
                bytes.len(),
                now,
                buffer.as_mut_ptr(),
                buffer.len(),
                &mut received,
            )
        };
        done(number, received)
    }

    /// Drops the rows that are dead at a time, in ms.
    pub(crate) fn expire(&mut self, now: u64) -> Result<(), u16> {
        // SAFETY: the pointer is of a handle that is borrowed mutably, and only these functions change. Any time is allowed.
        let number = unsafe { lisp_registration_server_expire(&mut self.0, now) };
        done(number, ())
    }

    /// The first row from a place on that is alive at a time, in ms; its locators are put in front of the slice, and the place
    /// becomes the next one.
    pub(crate) fn row(
        &mut self,
        now: u64,
        place: &mut usize,
        locators: &mut [lisp_locator],
    ) -> Result<lisp_row, u16> {
        let mut row = lisp_row::default();
        // SAFETY: the pointers are of references, of a slice and of a local that live for the call; all are borrowed mutably, and
        // so overlap no other. Any time and any place is allowed.
        let number = unsafe {
            lisp_registration_server_row(
                &mut self.0,
                now,
                place,
                &mut row,
                locators.as_mut_ptr(),
                locators.len(),
            )
        };
        done(number, row)
    }

    /// Who answers for an address at a time, in ms (RFC 9301 section 8.3); the locators of a record are put in front of the slice.
    pub(crate) fn answer(
        &mut self,
        address: &lisp_address,
        now: u64,
        locators: &mut [lisp_locator],
    ) -> Result<lisp_answer, u16> {
        let mut answer = lisp_answer::default();
        // SAFETY: the pointers are of references, of a slice and of a local that live for the call; those that are written are
        // borrowed mutably, and so overlap no other. Any time is allowed.
        let number = unsafe {
            lisp_registration_server_answer(
                &mut self.0,
                address,
                now,
                &mut answer,
                locators.as_mut_ptr(),
                locators.len(),
            )
        };
        done(number, answer)
    }

    /// What is sent for an EID-Prefix at a time, in ms (RFC 9301 sections 5.4 and 8.3).
    pub(crate) fn reply(
        &mut self,
        eid: &lisp_prefix,
        nonce: u64,
        starting: bool,
        now: u64,
        buffer: &mut [u8],
    ) -> Result<lisp_replied, u16> {
        let mut replied = lisp_replied::default();
        // SAFETY: the pointers are of references and of a slice that live for the call; the handle, the buffer and the local that
        // are written are borrowed mutably, and so overlap no other. Any numbers and any time are allowed.
        let number = unsafe {
            lisp_registration_server_reply(
                &mut self.0,
                eid,
                nonce,
                starting.into(),
                now,
                buffer.as_mut_ptr(),
                buffer.len(),
                &mut replied,
            )
        };
        done(number, replied)
    }

    /// The router to which a notice is due again at a time, in ms.
    pub(crate) fn due(&mut self, now: u64) -> Result<lisp_router_id, u16> {
        let mut router = lisp_router_id::default();
        // SAFETY: the pointers are of a handle and of a local, both borrowed mutably for the call. Any time is allowed.
        let number = unsafe { lisp_registration_server_due(&mut self.0, now, &mut router) };
        done(number, router)
    }

    /// Makes a notice for a router at a time, in ms (RFC 9301 section 5.7).
    pub(crate) fn notify(
        &mut self,
        kept: &lisp_nonce,
        router: &lisp_router_id,
        now: u64,
        buffer: &mut [u8],
    ) -> Result<lisp_notice, u16> {
        let mut notice = lisp_notice::default();
        // SAFETY: the pointers are of references and of a slice that live for the call; the handle, the buffer and the local that
        // are written are borrowed mutably, and so overlap no other. Any time is allowed.
        let number = unsafe {
            lisp_registration_server_notify(
                &mut self.0,
                kept,
                router,
                now,
                buffer.as_mut_ptr(),
                buffer.len(),
                &mut notice,
            )
        };
        done(number, notice)
    }

    /// Sends a router again the notice that is due at a time, in ms (RFC 9301 section 5.7).
    pub(crate) fn resend(
        &mut self,
        router: &lisp_router_id,
        now: u64,
        buffer: &mut [u8],
    ) -> Result<lisp_notice, u16> {
        let mut notice = lisp_notice::default();
        // SAFETY: the pointers are of references and of a slice that live for the call; the handle, the buffer and the local that
        // are written are borrowed mutably, and so overlap no other. Any time is allowed.
        let number = unsafe {
            lisp_registration_server_resend(
                &mut self.0,
                router,
                now,
                buffer.as_mut_ptr(),
                buffer.len(),
                &mut notice,
            )
        };
        done(number, notice)
    }
}

impl Drop for ServerHandle {
    fn drop(&mut self) {
        // SAFETY: the pointer is of a handle that is borrowed mutably, and only these functions change.
        unsafe { lisp_registration_server_stop(&mut self.0) }
    }
}

/// The pair whose last nonce a datagram needs.
pub(crate) fn pair(bytes: &[u8]) -> lisp_pair {
    let mut pair = lisp_pair::default();
    // SAFETY: the pointers are of a slice and of a local, and live for the call.
    unsafe { lisp_registration_server_pair(bytes.as_ptr(), bytes.len(), &mut pair) }
    pair
}
