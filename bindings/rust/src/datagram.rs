//! HTTP datagrams (RFC 9297, section 2.1).
use crate::error::{Code, WriteError};
use crate::sys;
use alloc::vec::Vec;

/// A datagram of a session: the session's ID and a payload.
///
/// ```
/// use vesgrauf::datagram::Datagram;
///
/// let mut bytes = Vec::new();
/// Datagram::new(8, b"hi").write(&mut bytes)?;
/// assert_eq!(bytes, [2, b'h', b'i']); // the ID is sent divided by 4
/// assert_eq!(Datagram::read(&bytes), Ok(Datagram::new(8, b"hi")));
/// # Ok::<(), vesgrauf::error::WriteError>(())
/// ```
#[derive(Clone, Copy, Debug, PartialEq, Eq)]
pub struct Datagram<'a> {
    session: u64,
    payload: &'a [u8],
}

impl<'a> Datagram<'a> {
    /// Creates a datagram.
    pub fn new(session: u64, payload: &'a [u8]) -> Self {
        Datagram { session, payload }
    }

    /// Returns the ID of the session.
    pub fn session_id(&self) -> u64 {
        self.session
    }

    /// Returns the payload.
    pub fn payload(&self) -> &'a [u8] {
        self.payload
    }

    /// Reads the payload of a QUIC datagram. [`Connection::datagram`](crate::Connection::datagram) does
    /// so by the rules of a connection.
    ///
    /// # Errors
    ///
    /// [`Code::H3_DATAGRAM_ERROR`].
    pub fn read(quic_datagram: &'a [u8]) -> Result<Self, Code> {
        match sys::datagram_read(quic_datagram) {
            (sys::WT_OK, session, offset, _) => {
                Ok(Datagram::new(session, &quic_datagram[offset..]))
            }
            (_, _, _, code) => Err(Code::new(code)),
        }
    }

    /// Appends the datagram.
    ///
    /// # Errors
    ///
    /// [`WriteError::Invalid`] if the number is not that of a session.
    pub fn write(&self, out: &mut Vec<u8>) -> Result<(), WriteError> {
        WriteError::result(sys::datagram_write(self.session, self.payload, out))
    }

    /// Appends what comes before the payload, so that the payload need not be copied.
    ///
    /// # Errors
    ///
    /// [`WriteError::Invalid`] if the number is not that of a session.
    pub fn write_head(session: u64, out: &mut Vec<u8>) -> Result<(), WriteError> {
        WriteError::result(sys::datagram_write_head(session, out))
    }
}
