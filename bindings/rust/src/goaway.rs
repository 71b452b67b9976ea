//! GOAWAY, by which an endpoint ends a connection without losing requests (RFC 9114, section 5.2).
use crate::connection::Side;
use crate::error::WriteError;
use crate::sys;
use alloc::vec::Vec;

/// The GOAWAY frames that this endpoint sends on its control stream, after SETTINGS: their IDs never rise.
///
/// A server first sends the largest ID, 2^62 - 4, which rejects nothing: the client then asks for no more.
/// When no request can be under way any more, it sends the ID after the last request that it processes. At a
/// client the ID is that of a push, and 0 says that it accepts none.
///
/// ```
/// use vesgrauf::error::WriteError;
/// use vesgrauf::goaway::Goaway;
/// use vesgrauf::Side;
///
/// let (mut goaway, mut bytes) = (Goaway::new(Side::Server), Vec::new());
/// goaway.write(Goaway::LARGEST, &mut bytes)?;
/// bytes.clear();
/// goaway.write(4, &mut bytes)?; // the request on the stream 0 was the last one
/// assert_eq!(bytes, [0x07, 0x01, 0x04]);
/// assert_eq!(goaway.write(8, &mut bytes), Err(WriteError::Invalid));
/// assert_eq!(goaway.last(), Some(4));
/// # Ok::<(), WriteError>(())
/// ```
#[derive(Debug, PartialEq, Eq)]
pub struct Goaway {
    side: Side,
    last: u64,
}

impl Goaway {
    /// The largest ID of a request, with which a server announces that it will end the connection.
    pub const LARGEST: u64 = (1 << 62) - 4;

    /// Creates the state of an endpoint of this side that has sent no GOAWAY.
    pub const fn new(side: Side) -> Self {
        Goaway { side, last: sys::WT_NO_GOAWAY }
    }

    /// Returns the ID of the last GOAWAY. At a server requests on streams from it on are to be rejected:
    /// reset and stop them with [`Code::H3_REQUEST_REJECTED`](crate::error::Code::H3_REQUEST_REJECTED).
    pub fn last(&self) -> Option<u64> {
        (self.last != sys::WT_NO_GOAWAY).then_some(self.last)
    }

    /// Appends a GOAWAY frame with this ID. An ID may be sent again, and a lower one.
    ///
    /// # Errors
    ///
    /// Nothing is appended then. [`WriteError::Invalid`] if the ID is 2^62 or more or above the last one, or
    /// at a server if it is not that of a bidirectional stream that a client opened.
    pub fn write(&mut self, id: u64, out: &mut Vec<u8>) -> Result<(), WriteError> {
        WriteError::result(sys::goaway_write(self.side.number(), id, &mut self.last, out))
    }
}
