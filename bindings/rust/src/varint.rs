//! Variable-length integers of QUIC, below 2^62 (RFC 9000, section 16).
use crate::error::WriteError;
use crate::sys;
use alloc::vec::Vec;

/// Returns the integer at the start of the bytes and the size of its encoding, or `None` if there are
/// too few bytes. Every encoding is read, not only the shortest.
///
/// ```
/// // RFC 9000, section A.1
/// assert_eq!(vesgrauf::varint::first_varint(&[0x7b, 0xbd, 0xff]), Some((15_293, 2)));
/// assert_eq!(vesgrauf::varint::first_varint(&[0x7b]), None);
/// ```
pub fn first_varint(bytes: &[u8]) -> Option<(u64, usize)> {
    sys::varint_read(bytes)
}

/// Appends the shortest encoding.
///
/// # Errors
///
/// [`WriteError::Invalid`] if the integer is 2^62 or more.
pub fn write_varint(value: u64, out: &mut Vec<u8>) -> Result<(), WriteError> {
    WriteError::result(sys::varint_write(value, out))
}

/// Returns the size of the shortest encoding, 1, 2, 4 or 8, or `None` if the integer is 2^62 or more.
pub fn varint_size(value: u64) -> Option<usize> {
    match sys::varint_size(value) {
        0 => None,
        size => Some(size),
    }
}
