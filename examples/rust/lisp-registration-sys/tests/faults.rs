//! What the header says of the functions at a fault: nothing was written, whatever they are asked to read.

use lisp_registration_sys::*;

/// A Map-Notify without records, and without a tag.
const BYTES: [u8; 32] = {
    let mut bytes = [0; 32];
    bytes[0] = 0x40;
    bytes[13] = 2;
    bytes[15] = 16;
    bytes
};

#[test]
fn a_message_that_is_cut_is_not_written() {
    let before = lisp_message { nonce: 7, kind: 9, records_end: 11, ..lisp_message::default() };
    for length in 0..=BYTES.len() {
        let mut message = before;
        // SAFETY: the pointers are of a constant's bytes, of which there are `length`, and of a local.
        let number =
            unsafe { lisp_registration_read_message(BYTES.as_ptr(), length, &mut message) };
        if length < BYTES.len() {
            assert_eq!((number, message), (LISP_SHORT, before));
        } else {
            assert_eq!((number, message.kind), (LISP_DONE, LISP_MAP_NOTIFY));
            assert_eq!((message.records_at, message.records_end), (LISP_RECORDS_AT, 32));
        }
    }
}

#[test]
fn a_record_or_locator_may_be_looked_for_anywhere() {
    let (length, bytes) = (BYTES.len(), BYTES.as_ptr());
    let record_before = lisp_record { ttl: 7, end: 11, ..lisp_record::default() };
    let locator_before = lisp_locator { weight: 7, end: 11, ..lisp_locator::default() };
    for at in [length - 7, length, length + 1, isize::MAX as usize, usize::MAX - 7, usize::MAX] {
        let (mut record, mut locator) = (record_before, locator_before);
        // SAFETY: the pointers are of a constant's bytes, of which there are `length`, and of locals.
        let numbers = unsafe {
            (
                lisp_registration_read_record(bytes, length, at, &mut record),
                lisp_registration_read_locator(bytes, length, at, &mut locator),
            )
        };
        assert_eq!(numbers, (LISP_SHORT, LISP_SHORT));
        assert_eq!((record, locator), (record_before, locator_before));
    }
}
