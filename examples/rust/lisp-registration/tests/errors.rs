//! Each error once, but [`Error::OutOfMemory`], which `out_of_memory` has.
#![allow(missing_docs)]

mod common;

use common::{cut_short, map_register, notification, record, registration, SECRET};
use lisp_registration::{
    sign, write, write_into, Datagram, Error, RecordFault, RecordWithLocators,
};
use std::error::Error as _;

/// The fault of bytes that can't be read.
fn parsed(bytes: &[u8]) -> Error {
    Datagram::parse(bytes).unwrap_err()
}

/// The fault of the worked Map-Register with one byte changed (docs/PROTOCOL.md says where which field is).
fn changed(at: usize, byte: u8) -> Error {
    let mut bytes = map_register();
    bytes[at] = byte;
    parsed(&bytes)
}

#[test]
fn errors_of_reading() {
    let mut trailing = map_register();
    trailing.push(0);
    let found = [
        parsed(&[]),
        changed(0, 0x2a),
        changed(13, 1),
        changed(15, 20),
        changed(0, 0x38),
        parsed(&trailing),
    ];
    let wanted = [
        (Error::Short, 1),
        (Error::Kind, 10),
        (Error::Algorithm, 11),
        (Error::AuthenticationLength, 12),
        (Error::NoIds, 13),
        (Error::Trailing, 14),
    ];
    assert_eq!(found.map(|error| (error, error.number())), wanted);
}

#[test]
fn errors_of_records() {
    let two = write(&registration(), &[record(), record()], SECRET).unwrap();
    let found = [
        (parsed(&cut_short()), 0, RecordFault::Short, 1),
        (changed(43, 3), 0, RecordFault::Afi, 2),
        (changed(55, 3), 0, RecordFault::Afi, 2),
        (changed(37, 33), 0, RecordFault::Mask, 3),
        (parsed(&two[..87]), 1, RecordFault::Short, 1),
    ];
    for (error, index, fault, number) in found {
        assert_eq!(error, Error::Record { index, fault });
        assert_eq!((error.number(), fault.number()), (15, number));
        assert_eq!(error.source().unwrap().to_string(), fault.to_string());
    }
}

/// The error of a Map-Notify with the worked record, changed.
fn refused(change: impl FnOnce(&mut RecordWithLocators)) -> Error {
    let mut entry = record();
    change(&mut entry);
    write(&notification(), &[entry], SECRET).unwrap_err()
}

#[test]
fn errors_of_writing() {
    assert_eq!(refused(|entry| entry.record.mask_len = 33), Error::Field);
    assert_eq!(refused(|entry| entry.record.act = 8), Error::Field);
    assert_eq!(refused(|entry| entry.record.version = 4096), Error::Field);
    let locator = record().locators[0];
    let many = refused(|entry| entry.locators = vec![locator; 256]);
    assert_eq!(many, Error::Counts);
    let records = vec![record(); 256];
    assert_eq!(write(&notification(), &records, SECRET), Err(Error::Counts));
    assert_eq!((Error::Field.number(), Error::Counts.number()), (103, 104));
}

#[test]
fn a_buffer_without_room_is_left() {
    let mut buffer = [0xee; 59];
    for room in [0, 1, 59] {
        let error = write_into(&notification(), &[record()], SECRET, &mut buffer[..room]);
        assert_eq!(error, Err(Error::Room { needed: 60 }));
    }
    assert_eq!(buffer, [0xee; 59]);
    assert_eq!(Error::Room { needed: 60 }.number(), 102);
}

#[test]
fn too_few_bytes_have_no_tag() {
    let mut bytes = [0xee; 31];
    assert_eq!(sign(&mut bytes, SECRET), Err(Error::Short));
    assert_eq!(bytes, [0xee; 31]);
}

#[test]
fn errors_are_told_in_words() {
    let words = [
        Error::Kind.to_string(),
        changed(43, 3).to_string(),
        Error::Room { needed: 60 }.to_string(),
    ];
    let wanted = [
        "the type is none of 3, 4 and 5",
        "record 0 can't be read",
        "the buffer has no room for 60 bytes",
    ];
    assert_eq!(words, wanted);
    assert!(Error::Kind.source().is_none());
}
