//! Tags of datagrams.

use crate::error::Error;
use crate::raw;

/// Whether the Authentication Data of a datagram is its tag under a secret of any length: the first 128 bits of HMAC-SHA-256
/// over all of it, with the Authentication Data taken as zeros (RFC 9301 section 5.6, RFC 4868). False where there are no 32
/// bytes. Whether the bytes can be read as a message is another question.
#[must_use]
pub fn is_authentic(bytes: &[u8], secret: &[u8]) -> bool {
    raw::authentic(bytes, secret)
}

/// Puts the tag of a datagram under a secret of any length into its Authentication Data (RFC 9301 section 5.6).
///
/// # Errors
///
/// [`Error::Short`] where there are no 32 bytes, which are left as they were.
pub fn sign(bytes: &mut [u8], secret: &[u8]) -> Result<(), Error> {
    raw::sign(bytes, secret).map_err(Error::of)
}
