//! Headers of unidirectional streams (RFC 9114, section 6.2; draft-ietf-webtrans-http3-02, section
//! 4.1).
use crate::error::{Code, WriteError};
use crate::sys;
use alloc::vec::Vec;

/// The kind of a unidirectional stream.
#[derive(Clone, Copy, Debug, PartialEq, Eq)]
pub enum StreamKind {
    /// The control stream.
    Control,
    /// The encoder stream of QPACK.
    QPackEncoder,
    /// The decoder stream of QPACK.
    QPackDecoder,
    /// A stream of a WebTransport session.
    WebTransport,
    /// A reserved type, `0x21 + 0x1f * n`: what follows is to be ignored (RFC 9114, section 6.2.3).
    Exercise(u64),
}

impl StreamKind {
    /// Returns the type.
    pub fn id(self) -> u64 {
        match self {
            StreamKind::Control => sys::WT_STREAM_CONTROL,
            StreamKind::QPackEncoder => sys::WT_STREAM_QPACK_ENCODER,
            StreamKind::QPackDecoder => sys::WT_STREAM_QPACK_DECODER,
            StreamKind::WebTransport => sys::WT_STREAM_WEBTRANSPORT,
            StreamKind::Exercise(id) => id,
        }
    }

    fn of(id: u64) -> Self {
        match id {
            sys::WT_STREAM_CONTROL => StreamKind::Control,
            sys::WT_STREAM_QPACK_ENCODER => StreamKind::QPackEncoder,
            sys::WT_STREAM_QPACK_DECODER => StreamKind::QPackDecoder,
            sys::WT_STREAM_WEBTRANSPORT => StreamKind::WebTransport,
            id => StreamKind::Exercise(id),
        }
    }
}

/// The header of a unidirectional stream: its kind, and the session ID of a WebTransport stream.
///
/// ```
/// use vesgrauf::stream_header::{StreamHeader, StreamKind};
///
/// let mut bytes = Vec::new();
/// StreamHeader::new_webtransport(4).write(&mut bytes)?;
/// assert_eq!(bytes, [0x40, 0x54, 0x04]);
/// let (header, size) = StreamHeader::read(&bytes).unwrap().unwrap();
/// assert_eq!((header.kind(), header.session_id(), size), (StreamKind::WebTransport, Some(4), 3));
/// # Ok::<(), vesgrauf::error::WriteError>(())
/// ```
#[derive(Clone, Copy, Debug, PartialEq, Eq)]
pub struct StreamHeader {
    kind: StreamKind,
    session: u64,
}

impl StreamHeader {
    /// Creates the header of a stream of this kind, other than a WebTransport stream.
    pub fn new(kind: StreamKind) -> Self {
        StreamHeader { kind, session: 0 }
    }

    /// Creates the header of the control stream.
    pub fn new_control() -> Self {
        StreamHeader::new(StreamKind::Control)
    }

    /// Creates the header of a WebTransport stream of this session.
    pub fn new_webtransport(session: u64) -> Self {
        let kind = StreamKind::WebTransport;
        StreamHeader { kind, session }
    }

    /// Returns the kind.
    pub fn kind(&self) -> StreamKind {
        self.kind
    }

    /// Returns the session ID of a WebTransport stream, and `None` for every other kind.
    pub fn session_id(&self) -> Option<u64> {
        (self.kind == StreamKind::WebTransport).then_some(self.session)
    }

    /// Reads the header at the start of a stream: the header and its size, or `None` if there are too
    /// few bytes.
    ///
    /// # Errors
    ///
    /// [`Code::H3_STREAM_CREATION_ERROR`] for an unknown type, after which the stream alone is no
    /// longer read, and [`Code::H3_ID_ERROR`] for an invalid session ID.
    pub fn read(bytes: &[u8]) -> Result<Option<(Self, usize)>, Code> {
        match sys::stream_header_read(bytes) {
            (sys::WT_OK, header, size, _) => {
                let (kind, session) = (StreamKind::of(header.kind), header.session);
                Ok(Some((StreamHeader { kind, session }, size)))
            }
            (sys::WT_MORE, ..) => Ok(None),
            (_, _, _, code) => Err(Code::new(code)),
        }
    }

    /// Appends the header.
    ///
    /// # Errors
    ///
    /// [`WriteError::Invalid`] if the session ID is not that of a bidirectional stream of the client, or
    /// the type of [`StreamKind::Exercise`] is not reserved.
    pub fn write(&self, out: &mut Vec<u8>) -> Result<(), WriteError> {
        let (kind, session) = (self.kind.id(), self.session);
        WriteError::result(sys::stream_header_write(&sys::StreamHeader { kind, session }, out))
    }
}
