//! The datagrams of `examples`, and the cases of `tests/answers.txt`.
#![allow(missing_docs)]

mod common;

use common::{
    bytes_of, cut_short, map_notify, map_register, notification, record, registration, wrong_tag,
    SECRET,
};
use lisp_registration::{
    is_authentic, sign, write, write_into, Datagram, Error, Message, RecordFault,
    RecordWithLocators,
};

fn says(bytes: &[u8], message: Message) {
    let datagram = Datagram::parse(bytes).unwrap();
    assert_eq!(datagram.bytes(), bytes);
    assert_eq!(datagram.message(), message);
    assert_eq!(datagram.records().len(), 1);
    let records: Vec<RecordWithLocators> = datagram.records().map(Into::into).collect();
    assert_eq!(records, [record()]);
}

#[test]
fn the_worked_datagrams_say_what_is_known_of_them() {
    says(&map_register(), registration());
    says(&wrong_tag(), registration());
    says(&map_notify(), notification());
    let fault = RecordFault::Short;
    let error = Datagram::parse(&cut_short()).unwrap_err();
    assert_eq!(error, Error::Record { index: 0, fault });
}

#[test]
fn they_are_authentic_but_one() {
    for bytes in [map_register(), map_notify()] {
        assert!(Datagram::parse(&bytes).unwrap().is_authentic(SECRET));
        assert!(!is_authentic(&bytes, b"Secret"));
        assert!(!is_authentic(&bytes, b""));
    }
    assert!(!is_authentic(&wrong_tag(), SECRET));
    assert!(!is_authentic(&map_register()[..31], SECRET));
}

#[test]
fn they_are_written_byte_for_byte() {
    let worked = [(registration(), map_register()), (notification(), map_notify())];
    for (message, bytes) in worked {
        assert_eq!(write(&message, &[record()], SECRET), Ok(bytes.clone()));
        let mut buffer = [0xee; 100];
        let length = write_into(&message, &[record()], SECRET, &mut buffer).unwrap();
        assert_eq!(buffer[..length], bytes);
        assert!(buffer[length..].iter().all(|&byte| byte == 0xee));
    }
}

#[test]
fn a_tag_is_mended() {
    let mut bytes = wrong_tag();
    sign(&mut bytes, SECRET).unwrap();
    assert_eq!(bytes, map_register());
}

/// A case of `tests/answers.txt`: the bytes of its line, and what `lispd answer` prints.
struct Case<'a> {
    name: &'a str,
    bytes: Vec<u8>,
    output: &'a str,
}

/// The cases without words, whose input is one line of hexadecimal digits.
fn cases(text: &str) -> Vec<Case<'_>> {
    let case = |lines: &str| lines.starts_with("case: ") && !lines.contains("\nwords: ");
    text.split("\n\n")
        .map(|part| part.trim_start_matches('\n'))
        .filter(|part| case(part))
        .filter_map(case_of)
        .collect()
}

fn case_of(part: &str) -> Option<Case<'_>> {
    let values = |key| part.lines().filter_map(move |line| line.strip_prefix(key));
    let input: String = values("input: ").collect();
    let bytes = match input.as_str() {
        "@../examples/map-register.hex" => map_register(),
        "@../examples/map-notify.hex" => map_notify(),
        "@../examples/wrong-tag.hex" => wrong_tag(),
        "@../examples/cut-short.hex" => cut_short(),
        digits => bytes_of(digits.strip_suffix(r"\n").unwrap_or(digits))?,
    };
    Some(Case { name: values("case: ").next()?, bytes, output: values("output: ").next()? })
}

/// How `lispd answer` prints a fault.
fn printed(error: Error) -> String {
    match error {
        Error::Record { index, fault } => {
            format!("refused 50 read 15 record {index} fault {}", fault.number())
        }
        _ => format!("refused 50 read {}", error.number()),
    }
}

/// A Map-Server reads a message first and asks for its tag after Site-ID and Key ID; what passes is authentic.
#[test]
fn cases_of_the_program_are_read_as_it_reads_them() {
    let cases = cases(include_str!("../../../../tests/answers.txt"));
    let mut read = 0;
    for Case { name, bytes, output } in &cases {
        let authentic = match Datagram::parse(bytes) {
            Err(error) => {
                assert_eq!(printed(error), *output, "{name}");
                continue;
            }
            Ok(datagram) => datagram.is_authentic(SECRET),
        };
        assert!(!output.starts_with("refused 50"), "{name}");
        match *output {
            "refused 53" => assert!(!authentic, "{name}"),
            "refused 51" | "refused 52" | "refused 61" | "refused 60" => (),
            _ => assert!(authentic, "{name}"),
        }
        read += 1;
    }
    assert!(read >= 20 && cases.len() - read >= 20, "{read} of {}", cases.len());
}
