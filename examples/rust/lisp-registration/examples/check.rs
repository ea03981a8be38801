//! `check SECRET [FILE]` reads a datagram as hexadecimal digits, of a file or of standard input, and prints whether it is
//! authentic under a secret, its fields and its records. Ends with 0 where it is authentic, 1 where it isn't, 2 at a fault.

use lisp_registration::{Datagram, Kind, Locator, Record, Registration};
use std::error::Error;
use std::io::Read;
use std::process::ExitCode;
use std::{env, fs, io};

fn main() -> ExitCode {
    match run() {
        Ok(true) => ExitCode::SUCCESS,
        Ok(false) => ExitCode::from(1),
        Err(error) => {
            eprint!("check: {error}");
            if let Some(source) = error.source() {
                eprint!(": {source}");
            }
            eprintln!();
            ExitCode::from(2)
        }
    }
}

/// Prints the datagram; whether it is authentic.
fn run() -> Result<bool, Box<dyn Error>> {
    let mut words = env::args().skip(1);
    let secret = words.next().ok_or("usage: check SECRET [FILE]")?;
    let text = match words.next() {
        Some(path) => fs::read_to_string(path)?,
        None => {
            let mut text = String::new();
            io::stdin().read_to_string(&mut text)?;
            text
        }
    };
    let bytes = bytes_of(text.trim_end())
        .ok_or("the text is no hexadecimal digits, or an odd number of them")?;
    let datagram = Datagram::parse(&bytes)?;
    let authentic = datagram.is_authentic(secret.as_bytes());
    println!("authentic: {authentic}");
    print_datagram(&datagram);
    Ok(authentic)
}

/// The bytes of hexadecimal digits; `None` for what is no such text.
fn bytes_of(text: &str) -> Option<Vec<u8>> {
    let digits = text.chars().map(|digit| digit.to_digit(16)).collect::<Option<Vec<u32>>>()?;
    let pairs = digits.chunks_exact(2);
    if !pairs.remainder().is_empty() {
        return None;
    }
    pairs.map(|pair| u8::try_from(pair[0] << 4 | pair[1]).ok()).collect()
}

fn print_datagram(datagram: &Datagram<'_>) {
    let message = datagram.message();
    println!("{} nonce {} key {}", message.kind, message.nonce, message.key_id);
    if let Kind::MapRegister(registration) = message.kind {
        print_registration(&registration);
    }
    for layout in datagram.records() {
        print_record(&layout.record());
        layout.locators().for_each(|locator| print_locator(&locator));
    }
}

fn print_registration(registration: &Registration) {
    let xtr = u128::from_be_bytes(registration.xtr);
    println!("xTR-ID {xtr:032x} Site-ID {:016x}", registration.site);
    let bits = [
        (registration.proxy, "P"),
        (registration.sec, "S"),
        (registration.eid_notify, "E"),
        (registration.use_ttl, "T"),
        (registration.merge, "a"),
        (registration.want_notify, "M"),
    ];
    println!("bits set:{}", set(&bits));
}

fn print_record(record: &Record) {
    let Record { eid, mask_len, ttl, act, version, authoritative } = record;
    let bits = set(&[(*authoritative, "A")]);
    println!("record {eid}/{mask_len} ttl {ttl} act {act} version {version} bits set:{bits}");
}

fn print_locator(locator: &Locator) {
    let bits = [(locator.local, "L"), (locator.probe, "p"), (locator.reachable, "R")];
    println!(
        "  locator {} priority {} weight {} multicast priority {} weight {} bits set:{}",
        locator.address,
        locator.priority,
        locator.weight,
        locator.multicast_priority,
        locator.multicast_weight,
        set(&bits)
    );
}

/// The names of the bits that are set, each behind a space.
fn set(bits: &[(bool, &str)]) -> String {
    let names = bits.iter().filter(|(is_set, _)| *is_set);
    names.map(|(_, name)| format!(" {name}")).collect()
}
