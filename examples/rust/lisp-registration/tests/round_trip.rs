//! What is written is read the same.
#![allow(missing_docs)]

mod common;

use common::{
    address, bytes_of, locator, map_notify, map_register, notification, record, registration,
};
use lisp_registration::{
    write, Datagram, Kind, Locator, Message, Record, RecordWithLocators, Registration,
};

/// Writes a message and its records, and reads them again.
fn goes_round(message: Message, records: &[RecordWithLocators], secret: &[u8]) {
    let bytes = write(&message, records, secret).unwrap();
    let datagram = Datagram::parse(&bytes).unwrap();
    assert!(datagram.is_authentic(secret));
    assert_eq!(datagram.message(), message);
    assert_eq!(datagram.records().len(), records.len());
    let read: Vec<RecordWithLocators> = datagram.records().map(Into::into).collect();
    assert_eq!(read, records);
}

/// Records of both families, with no locator, some, and as many as a record can have; each field at its ends.
fn records() -> Vec<RecordWithLocators> {
    let last = Record {
        eid: address("ffff:ffff:ffff:ffff:ffff:ffff:ffff:ffff"),
        mask_len: 128,
        ttl: u32::MAX,
        act: 7,
        authoritative: false,
        version: 4095,
    };
    let any = Record { eid: address("0.0.0.0"), mask_len: 0, ttl: 0, ..last };
    let unlike = Locator {
        priority: 255,
        weight: 1,
        multicast_priority: 2,
        multicast_weight: 3,
        local: false,
        probe: true,
        reachable: false,
        ..locator("2001:db8::1")
    };
    let most = vec![unlike; 255];
    vec![
        record(),
        RecordWithLocators { record: last, locators: vec![] },
        RecordWithLocators { record: any, locators: vec![unlike, locator("192.0.2.2")] },
        RecordWithLocators { record: last, locators: most },
    ]
}

#[test]
fn messages_of_each_kind() {
    let kinds = [registration().kind, Kind::MapNotify, Kind::MapNotifyAck];
    for kind in kinds {
        let message = Message { kind, nonce: u64::MAX, key_id: 255 };
        goes_round(message, &[], b"secret");
        goes_round(message, &records(), b"secret");
    }
}

/// Each bit of a Map-Register alone: what bytes 0 and 2 are then is told in docs/PROTOCOL.md.
#[test]
fn bits_of_a_map_register() {
    let clear = Registration { xtr: [0xab; 16], site: u64::MAX, ..Registration::default() };
    let registrations = [
        (clear, 0x32, 0x00),
        (Registration { proxy: true, ..clear }, 0x3a, 0x00),
        (Registration { sec: true, ..clear }, 0x36, 0x00),
        (Registration { eid_notify: true, ..clear }, 0x32, 0x10),
        (Registration { use_ttl: true, ..clear }, 0x32, 0x08),
        (Registration { merge: true, ..clear }, 0x32, 0x04),
        (Registration { want_notify: true, ..clear }, 0x32, 0x01),
    ];
    for (registration, first, third) in registrations {
        let message = Message { kind: Kind::MapRegister(registration), nonce: 2, key_id: 3 };
        goes_round(message, &[record()], b"secret");
        let bytes = write(&message, &[], b"secret").unwrap();
        assert_eq!(bytes[..4], [first, 0, third, 0]);
        assert_eq!(bytes[4..16], [0, 0, 0, 0, 0, 0, 0, 2, 3, 2, 0, 16]);
        assert_eq!(bytes[32..], [[0xab; 16].as_slice(), &[0xff; 8]].concat());
    }
}

/// A record whose fields are all unlike: its bytes were made by hand, from docs/PROTOCOL.md.
#[test]
fn bytes_of_a_record() {
    let record = Record {
        eid: address("2001:db8::"),
        mask_len: 32,
        ttl: 0x0102_0304,
        act: 5,
        authoritative: false,
        version: 0x678,
    };
    let probed = Locator {
        address: address("198.51.100.7"),
        priority: 9,
        weight: 8,
        multicast_priority: 7,
        multicast_weight: 6,
        local: false,
        probe: true,
        reachable: false,
    };
    let entry = RecordWithLocators { record, locators: vec![probed] };
    let bytes = write(&notification(), &[entry], b"secret").unwrap();
    let head = "010203040120a0000678000220010db8000000000000000000000000";
    let wanted = bytes_of(&format!("{head}0908070600020001c6336407")).unwrap();
    assert_eq!(bytes[32..], wanted);
}

#[test]
fn secrets_of_any_length() {
    for length in [0, 1, 63, 64, 65, 256, 1000] {
        goes_round(notification(), &[record()], &vec![0x5a; length]);
    }
}

#[test]
fn as_many_records_as_a_message_can_have() {
    goes_round(registration(), &vec![record(); 255], b"secret");
}

/// Where one byte is changed and the datagram can still be read, what it says is written and read the same.
#[test]
fn changed_datagrams() {
    let mut read = 0;
    for bytes in [map_register(), map_notify()] {
        for at in 0..bytes.len() {
            for byte in 0..=255 {
                let mut changed = bytes.clone();
                changed[at] = byte;
                let Ok(datagram) = Datagram::parse(&changed) else {
                    continue;
                };
                let records: Vec<RecordWithLocators> = datagram.records().map(Into::into).collect();
                goes_round(datagram.message(), &records, b"secret");
                read += 1;
            }
        }
    }
    assert!(read > 20_000, "{read}");
}

#[test]
fn bits_past_the_mask_are_cleared() {
    let mut wide = record();
    wide.record.eid = address("10.1.255.255");
    let bytes = write(&notification(), &[wide], b"secret").unwrap();
    let read = Datagram::parse(&bytes).unwrap().records().next().unwrap().record();
    assert_eq!(read, record().record);
}
