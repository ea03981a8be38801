//! What the header says of handles that hold nothing: each call answers `LISP_NULL`, writes nothing, and leaves the handle.

use lisp_registration_sys::*;

#[test]
fn a_server_that_is_not_there() {
    let mut server = lisp_server::default();
    let (router, kept) = (lisp_router_id::default(), lisp_nonce::default());
    let from = lisp_address { family: LISP_IPV4, ..lisp_address::default() };
    let row_before = lisp_row { nonce: 7, ..lisp_row::default() };
    let (mut row, mut place, mut locators) = (row_before, 9, [lisp_locator::default(); 1]);
    let (mut answer, mut notice) = (lisp_answer::default(), lisp_notice::default());
    let (mut due, mut buffer) = (router, [0xee; LISP_MESSAGE_ROOM]);
    let mut received = lisp_received::default();
    let replied_before = lisp_replied { length: 7, ..lisp_replied::default() };
    let (eid, mut replied) = (lisp_prefix { mask_len: 0, address: from }, replied_before);
    let (handle, room) = (&mut server as *mut lisp_server, buffer.len());
    let bytes = buffer.as_mut_ptr();
    let (text, mut goes_on) = (include_bytes!("../../../worked.toml"), 7);
    // SAFETY: the pointers are of locals and of their first items, of which there are so many as is said; `handle` holds none.
    let numbers = unsafe {
        [
            lisp_registration_server_restart(handle),
            lisp_registration_server_reload(text.as_ptr(), text.len(), handle, &mut goes_on),
            lisp_registration_server_expire(handle, 0),
            lisp_registration_server_row(handle, 0, &mut place, &mut row, locators.as_mut_ptr(), 1),
            lisp_registration_server_answer(
                handle,
                &from,
                0,
                &mut answer,
                locators.as_mut_ptr(),
                1,
            ),
            lisp_registration_server_reply(handle, &eid, 1, 0, 0, bytes, room, &mut replied),
            lisp_registration_server_due(handle, 0, &mut due),
            lisp_registration_server_notify(handle, &kept, &router, 0, bytes, room, &mut notice),
            lisp_registration_server_resend(handle, &router, 0, bytes, room, &mut notice),
            lisp_registration_server_receive(
                handle,
                &kept,
                &from,
                [0; 1].as_ptr(),
                1,
                0,
                bytes,
                room,
                &mut received,
            ),
        ]
    };
    assert_eq!(numbers, [LISP_NULL; 10]);
    assert_eq!((row, place, replied, goes_on), (row_before, 9, replied_before, 7));
    assert!(buffer.iter().all(|&byte| byte == 0xee));
    // SAFETY: the handle holds none.
    unsafe { lisp_registration_server_stop(&mut server) };
    assert!(server.core.is_null());
}

#[test]
fn a_router_that_is_not_there() {
    let mut router = lisp_router::default();
    let from = lisp_address { family: LISP_IPV6, ..lisp_address::default() };
    let (mut due, mut sent) = (lisp_due::default(), lisp_sent::default());
    let (mut seen, mut buffer) = (lisp_seen::default(), [0xee; LISP_MESSAGE_ROOM]);
    let (handle, room) = (&mut router as *mut lisp_router, buffer.len());
    let bytes = buffer.as_mut_ptr();
    let text = include_bytes!("../../../worked.toml");
    let replied_before = lisp_replied { length: 7, ..lisp_replied::default() };
    let (eid, mut replied) = (lisp_prefix { mask_len: 0, address: from }, replied_before);
    // SAFETY: the pointers are of locals and of their first items, of which there are so many as is said; `handle` holds none.
    let numbers = unsafe {
        [
            lisp_registration_router_due(handle, 0, &mut due),
            lisp_registration_router_send(handle, 0, 0, 0, bytes, room, &mut sent),
            lisp_registration_router_receive(
                handle,
                &from,
                [0; 1].as_ptr(),
                1,
                0,
                bytes,
                room,
                &mut seen,
            ),
            lisp_registration_router_reply(handle, &eid, 1, 0, &from, bytes, room, &mut replied),
            lisp_registration_router_change(
                text.as_ptr(),
                text.len(),
                b"r1".as_ptr(),
                2,
                0,
                handle,
            ),
        ]
    };
    assert_eq!(numbers, [LISP_NULL; 5]);
    assert_eq!(replied, replied_before);
    assert!(buffer.iter().all(|&byte| byte == 0xee));
    // SAFETY: the handle holds none.
    unsafe { lisp_registration_router_stop(&mut router) };
    assert!(router.core.is_null());
}

#[test]
fn text_that_is_not_utf8_starts_nothing() {
    let (text, kept, mut router) = (b"\xff", lisp_nonce::default(), lisp_router::default());
    // SAFETY: the pointers are of locals and constants, of which there are so many bytes as is said; the handle holds none.
    let number = unsafe {
        lisp_registration_router_start(text.as_ptr(), 1, b"r1".as_ptr(), 2, &kept, 0, &mut router)
    };
    assert_eq!(number, LISP_NOT_UTF8);
    assert!(router.core.is_null());
}
