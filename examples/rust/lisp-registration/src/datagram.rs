//! Datagrams, read where their bytes lie.

use crate::error::{Error, RecordFault};
use crate::message::Message;
use crate::record::{Locator, Record, RecordWithLocators};
use crate::{raw, tag};
use lisp_registration_sys::{lisp_message, lisp_record, LISP_RECORD, LISP_RECORDS_AT};
use std::iter::FusedIterator;

/// A datagram that can be read to its end: the bytes of one message (RFC 9301 sections 5.6 and 5.7). Whether it is authentic
/// is another question.
#[derive(Clone, Copy, Debug)]
pub struct Datagram<'a> {
    bytes: &'a [u8],
    layout: lisp_message,
}

impl<'a> Datagram<'a> {
    /// Reads the bytes, all of them; takes no memory.
    ///
    /// # Errors
    ///
    /// The first fault from the left, of those but [`Error::Room`], [`Error::Field`], [`Error::Counts`] and
    /// [`Error::OutOfMemory`].
    pub fn parse(bytes: &'a [u8]) -> Result<Datagram<'a>, Error> {
        match raw::read_message(bytes) {
            Ok(layout) => Ok(Datagram { bytes, layout }),
            Err(LISP_RECORD) => Err(first_bad_record(bytes)),
            Err(number) => Err(Error::of(number)),
        }
    }

    /// The bytes that it was read from.
    pub fn bytes(&self) -> &'a [u8] {
        self.bytes
    }

    /// What its message says but its records.
    pub fn message(&self) -> Message {
        Message::from_raw(&self.layout)
    }

    /// Its records, in order.
    pub fn records(&self) -> Records<'a> {
        Records { bytes: self.bytes, at: self.layout.records_at, left: self.layout.record_count }
    }

    /// Whether its Authentication Data is its tag under a secret, as [`is_authentic`](crate::is_authentic) says it.
    #[must_use]
    pub fn is_authentic(&self, secret: &[u8]) -> bool {
        tag::is_authentic(self.bytes, secret)
    }
}

/// The first record that can't be read, of bytes that have one.
fn first_bad_record(bytes: &[u8]) -> Error {
    let mut at = LISP_RECORDS_AT;
    let mut index = 0;
    loop {
        match raw::read_record(bytes, at) {
            Ok(record) => at = record.end,
            Err(number) => {
                let fault = RecordFault::of(number);
                return Error::Record { index, fault };
            }
        }
        index += 1;
    }
}

/// A record of a datagram, where its bytes lie (RFC 9301 section 5.4).
#[derive(Clone, Copy, Debug)]
pub struct RecordLayout<'a> {
    bytes: &'a [u8],
    layout: lisp_record,
}

impl<'a> RecordLayout<'a> {
    /// What the record says but its locators.
    pub fn record(&self) -> Record {
        Record::from_raw(&self.layout)
    }

    /// Its locators, in order.
    pub fn locators(&self) -> Locators<'a> {
        Locators { bytes: self.bytes, at: self.layout.locators_at, left: self.layout.locator_count }
    }
}

impl From<RecordLayout<'_>> for RecordWithLocators {
    fn from(layout: RecordLayout<'_>) -> RecordWithLocators {
        RecordWithLocators { record: layout.record(), locators: layout.locators().collect() }
    }
}

/// The records of a datagram; see [`Datagram::records`].
#[derive(Clone, Debug)]
pub struct Records<'a> {
    bytes: &'a [u8],
    at: usize,
    left: u8,
}

impl<'a> Iterator for Records<'a> {
    type Item = RecordLayout<'a>;

    fn next(&mut self) -> Option<RecordLayout<'a>> {
        self.left = self.left.checked_sub(1)?;
        let layout = raw::read_record(self.bytes, self.at)
            .expect("the datagram was read, and so can be its records");
        self.at = layout.end;
        Some(RecordLayout { bytes: self.bytes, layout })
    }

    fn size_hint(&self) -> (usize, Option<usize>) {
        let left = usize::from(self.left);
        (left, Some(left))
    }
}

impl ExactSizeIterator for Records<'_> {}

impl FusedIterator for Records<'_> {}

/// The locators of a record; see [`RecordLayout::locators`].
#[derive(Clone, Debug)]
pub struct Locators<'a> {
    bytes: &'a [u8],
    at: usize,
    left: u8,
}

impl Iterator for Locators<'_> {
    type Item = Locator;

    fn next(&mut self) -> Option<Locator> {
        self.left = self.left.checked_sub(1)?;
        let layout = raw::read_locator(self.bytes, self.at)
            .expect("the record was read, and so can be its locators");
        self.at = layout.end;
        Some(Locator::from_raw(&layout))
    }

    fn size_hint(&self) -> (usize, Option<usize>) {
        let left = usize::from(self.left);
        (left, Some(left))
    }
}

impl ExactSizeIterator for Locators<'_> {}

impl FusedIterator for Locators<'_> {}
