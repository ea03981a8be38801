//! Writing messages.

use crate::error::Error;
use crate::message::Message;
use crate::raw;
use crate::record::{Locator, RecordWithLocators};
use lisp_registration_sys::{lisp_locator, lisp_record, LISP_ROOM};

/// The room that a datagram gets at first: what one packet carries over Ethernet.
const USUAL_ROOM: usize = 1500;

/// The datagram of a message and its records, authentic under a secret of any length (RFC 9301 sections 5.6 and 5.7).
///
/// # Errors
///
/// [`Error::Counts`], [`Error::Field`] or [`Error::OutOfMemory`].
pub fn write(
    message: &Message,
    records: &[RecordWithLocators],
    secret: &[u8],
) -> Result<Vec<u8>, Error> {
    let mut bytes = vec![0; USUAL_ROOM];
    loop {
        match write_into(message, records, secret, &mut bytes) {
            Ok(length) => {
                bytes.truncate(length);
                return Ok(bytes);
            }
            Err(Error::Room { needed }) => bytes.resize(needed, 0),
            Err(error) => return Err(error),
        }
    }
}

/// Writes the datagram of a message and its records into a buffer, authentic under a secret of any length: how many bytes it
/// has. Those behind them are left as they were.
///
/// # Errors
///
/// [`Error::Counts`], [`Error::Field`], [`Error::Room`] or [`Error::OutOfMemory`]; the buffer is left as it was.
pub fn write_into(
    message: &Message,
    records: &[RecordWithLocators],
    secret: &[u8],
    buffer: &mut [u8],
) -> Result<usize, Error> {
    let locators: Vec<lisp_locator> =
        records.iter().flat_map(|entry| &entry.locators).copied().map(Locator::to_raw).collect();
    let records = records.iter().map(to_raw).collect::<Result<Vec<lisp_record>, Error>>()?;
    raw::write_message(&message.to_raw(), &records, &locators, secret, buffer).map_err(
        |(number, needed)| match number {
            LISP_ROOM => Error::Room { needed },
            _ => Error::of(number),
        },
    )
}

/// A record as the library has it, with the count of its locators.
fn to_raw(entry: &RecordWithLocators) -> Result<lisp_record, Error> {
    let locator_count = u8::try_from(entry.locators.len()).map_err(|_| Error::Counts)?;
    Ok(entry.record.to_raw(locator_count))
}
