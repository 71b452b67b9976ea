//! Capsules (RFC 9297, section 3.2), and the one that closes a session (draft-ietf-webtrans-http3-02,
//! section 5).
use crate::error::{Code, WriteError};
use crate::sys;
use alloc::string::String;
use alloc::vec::Vec;

/// The kind of a capsule.
#[derive(Clone, Copy, Debug, PartialEq, Eq)]
pub enum CapsuleKind {
    /// It closes a session.
    CloseWebTransportSession,
}

impl CapsuleKind {
    /// Returns the type.
    pub fn id(self) -> u64 {
        sys::WT_CAPSULE_CLOSE_SESSION
    }
}

/// A capsule, by the position of its value in the bytes passed to [`CapsuleCursor::next`].
#[derive(Clone, Copy, Debug, PartialEq, Eq)]
pub struct CapsuleSpan {
    /// The kind.
    pub kind: CapsuleKind,
    /// The offset of the value.
    pub start: usize,
    /// The offset of the end of the value, which is the number of bytes consumed.
    pub end: usize,
}

impl CapsuleSpan {
    /// Returns the value of the capsule. Pass the bytes that were passed to [`CapsuleCursor::next`].
    pub fn value<'a>(&self, bytes: &'a [u8]) -> &'a [u8] {
        &bytes[self.start..self.end]
    }
}

/// The result of [`CapsuleCursor::next`].
#[derive(Clone, Copy, Debug, PartialEq, Eq)]
pub enum CapsuleStep {
    /// A complete capsule. The bytes up to its end are consumed.
    Capsule(CapsuleSpan),
    /// More bytes are needed. This many bytes are consumed.
    More(usize),
    /// An error of the stream, with its code. No byte is consumed.
    Fault(Code),
}

/// The state of an incremental reader of capsules, from the payloads of a stream's DATA frames. It
/// stores no bytes.
#[derive(Clone, Copy, Debug, Default, PartialEq, Eq)]
pub struct CapsuleCursor(sys::CapsuleReader);

impl CapsuleCursor {
    /// The longest value that is read: a longer one of a known kind is an error.
    pub const MAX_VALUE: usize = sys::WT_MAX_CAPSULE_VALUE;
    /// The most bytes that [`next`](Self::next) leaves to be passed again.
    pub const MAX_REST: usize = sys::WT_MAX_CAPSULE_REST;

    /// Creates a cursor at the first capsule of a stream's data.
    pub fn new() -> Self {
        CapsuleCursor::default()
    }

    /// Finds the next capsule of a known kind in the bytes after those consumed before. Others are
    /// skipped, even if they arrive in parts. The code of a fault is [`Code::H3_DATAGRAM_ERROR`], for a
    /// value above [`MAX_VALUE`](Self::MAX_VALUE) bytes.
    #[allow(clippy::should_implement_trait)] // the name that the Rattle crate has
    pub fn next(&mut self, bytes: &[u8]) -> CapsuleStep {
        match sys::capsule_read(&mut self.0, bytes) {
            (sys::WT_OK, capsule, consumed, _) => CapsuleStep::Capsule(CapsuleSpan {
                kind: CapsuleKind::CloseWebTransportSession,
                start: consumed - capsule.length,
                end: consumed,
            }),
            (sys::WT_MORE, _, consumed, _) => CapsuleStep::More(consumed),
            (_, _, _, code) => CapsuleStep::Fault(Code::new(code)),
        }
    }

    /// Checks that the data may end after `rest`, the bytes that were not consumed.
    ///
    /// # Errors
    ///
    /// [`Code::H3_MESSAGE_ERROR`] if a capsule has begun (RFC 9297, section 3.3).
    pub fn finish(&self, rest: &[u8]) -> Result<(), Code> {
        match sys::capsule_end(&self.0, rest) {
            (sys::WT_OK, _) => Ok(()),
            (_, code) => Err(Code::new(code)),
        }
    }
}

/// A session is closed, with an error code and a reason of the application.
///
/// ```
/// use vesgrauf::capsule::CloseWebTransportSession;
/// use vesgrauf::frame::{write_frame, FrameKind};
///
/// // what ends a session: the capsule in a DATA frame, and then the end of the stream
/// let mut capsule = Vec::new();
/// CloseWebTransportSession::new(7, "bye").write(&mut capsule)?;
/// assert_eq!(capsule, b"\x68\x43\x07\x00\x00\x00\x07bye");
/// let mut bytes = Vec::new();
/// write_frame(FrameKind::Data, &capsule, &mut bytes)?;
/// # Ok::<(), vesgrauf::error::WriteError>(())
/// ```
#[derive(Clone, Debug, PartialEq, Eq)]
pub struct CloseWebTransportSession {
    code: u32,
    reason: String,
}

impl CloseWebTransportSession {
    /// The longest reason, in bytes.
    pub const MAX_REASON_LEN: usize = sys::WT_MAX_CLOSE_REASON;

    /// Creates a close with this code and reason.
    pub fn new(code: u32, reason: &str) -> Self {
        let reason = reason.into();
        CloseWebTransportSession { code, reason }
    }

    /// Returns the error code of the application.
    pub fn error_code(&self) -> u32 {
        self.code
    }

    /// Returns the reason.
    pub fn reason(&self) -> &str {
        &self.reason
    }

    /// Reads the value of such a capsule.
    ///
    /// # Errors
    ///
    /// [`Code::H3_DATAGRAM_ERROR`] if it has fewer than 4 or more than 1028 bytes, or a reason that is
    /// not UTF-8.
    pub fn with_value(value: &[u8]) -> Result<Self, Code> {
        match sys::close_read(value) {
            (sys::WT_OK, code, _) => {
                let reason = String::from_utf8_lossy(&value[4..]).into_owned();
                Ok(CloseWebTransportSession { code, reason })
            }
            (_, _, code) => Err(Code::new(code)),
        }
    }

    /// Appends the capsule. It is the last of the payloads of DATA frames on the session's stream.
    ///
    /// # Errors
    ///
    /// [`WriteError::Invalid`] if the reason has more than
    /// [`MAX_REASON_LEN`](Self::MAX_REASON_LEN) bytes, and [`WriteError::Memory`].
    pub fn write(&self, out: &mut Vec<u8>) -> Result<(), WriteError> {
        WriteError::result(sys::close_write(self.code, self.reason.as_bytes(), out))
    }
}
