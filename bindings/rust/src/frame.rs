//! Frames (RFC 9114, section 7; draft-ietf-webtrans-http3-02, section 4.2).
//!
//! To read a whole connection use [`Connection`](crate::Connection). [`FrameCursor`] reads the frames
//! of one stream, for those who have a connection of their own.
use crate::error::{Code, WriteError};
use crate::sys;
use alloc::vec::Vec;

/// The kind of a frame.
#[derive(Clone, Copy, Debug, PartialEq, Eq)]
pub enum FrameKind {
    /// A DATA frame.
    Data,
    /// A HEADERS frame.
    Headers,
    /// A SETTINGS frame.
    Settings,
    /// The frame at the start of a bidirectional stream of a session. It has no payload: all bytes
    /// after it are the application's.
    WebTransport,
    /// A reserved type, `0x21 + 0x1f * n`, which is to be ignored (RFC 9114, section 7.2.8).
    Exercise(u64),
}

impl FrameKind {
    /// Returns the type.
    pub fn id(self) -> u64 {
        match self {
            FrameKind::Data => sys::WT_FRAME_DATA,
            FrameKind::Headers => sys::WT_FRAME_HEADERS,
            FrameKind::Settings => sys::WT_FRAME_SETTINGS,
            FrameKind::WebTransport => sys::WT_FRAME_WEBTRANSPORT,
            FrameKind::Exercise(id) => id,
        }
    }

    fn of(id: u64) -> Self {
        match id {
            sys::WT_FRAME_DATA => FrameKind::Data,
            sys::WT_FRAME_HEADERS => FrameKind::Headers,
            sys::WT_FRAME_SETTINGS => FrameKind::Settings,
            sys::WT_FRAME_WEBTRANSPORT => FrameKind::WebTransport,
            id => FrameKind::Exercise(id),
        }
    }
}

/// Appends a frame with a payload.
///
/// # Errors
///
/// [`WriteError::Invalid`] if the kind is [`FrameKind::WebTransport`], or an [`FrameKind::Exercise`]
/// whose type is not reserved.
pub fn write_frame(kind: FrameKind, payload: &[u8], out: &mut Vec<u8>) -> Result<(), WriteError> {
    WriteError::result(sys::frame_write(kind.id(), payload, out))
}

/// Appends what comes before the payload of a frame, its type and the length of its payload, so that
/// the payload need not be copied.
///
/// # Errors
///
/// As [`write_frame`], and [`WriteError::Invalid`] if the length is 2^62 or more.
pub fn write_head(kind: FrameKind, length: u64, out: &mut Vec<u8>) -> Result<(), WriteError> {
    WriteError::result(sys::frame_write_head(kind.id(), length, out))
}

/// Appends the frame at the start of a bidirectional stream of a session.
///
/// ```
/// let mut bytes = Vec::new();
/// vesgrauf::frame::write_webtransport(4, &mut bytes)?;
/// assert_eq!(bytes, [0x40, 0x41, 0x04]);
/// # Ok::<(), vesgrauf::error::WriteError>(())
/// ```
///
/// # Errors
///
/// [`WriteError::Invalid`] if the number is not that of a session.
pub fn write_webtransport(session: u64, out: &mut Vec<u8>) -> Result<(), WriteError> {
    WriteError::result(sys::session_frame_write(session, out))
}

/// The role of a stream whose frames are read.
#[derive(Clone, Copy, Debug, PartialEq, Eq)]
pub enum StreamRole {
    /// A bidirectional stream that the peer opened: DATA, HEADERS, and a WebTransport frame as the
    /// first.
    BiRemote,
    /// A bidirectional stream that was opened here: DATA, HEADERS.
    BiLocal,
    /// The peer's control stream, after its header: SETTINGS.
    UniRemote,
    /// The stream of a session, after the request or the response: DATA, HEADERS.
    Session,
}

/// A frame, by its position in the bytes passed to [`FrameCursor::next`].
#[derive(Clone, Copy, Debug, PartialEq, Eq)]
pub struct FrameSpan {
    /// The kind.
    pub kind: FrameKind,
    /// The session ID, if the kind is WebTransport.
    pub session_id: Option<u64>,
    /// The offset of the payload.
    pub start: usize,
    /// The offset of the end of the payload, which is the number of bytes consumed.
    pub end: usize,
}

impl FrameSpan {
    /// Returns the payload of the frame. Pass the bytes that were passed to [`FrameCursor::next`].
    pub fn payload<'a>(&self, bytes: &'a [u8]) -> &'a [u8] {
        &bytes[self.start..self.end]
    }
}

/// The result of [`FrameCursor::next`].
#[derive(Clone, Copy, Debug, PartialEq, Eq)]
pub enum CursorStep {
    /// A complete frame. The bytes up to its end are consumed.
    Frame(FrameSpan),
    /// More bytes are needed. This many bytes are consumed.
    More(usize),
    /// An error of the stream, with its code. No byte is consumed.
    Fault(Code),
}

/// The state of an incremental frame reader. It stores no bytes: the caller passes those that were not
/// consumed again, followed by new ones.
///
/// ```
/// use vesgrauf::frame::{CursorStep, FrameCursor, FrameKind, StreamRole};
///
/// let mut cursor = FrameCursor::new(StreamRole::BiRemote);
/// let bytes = b"\x00\x03abc\x00";
/// let frame = match cursor.next(bytes) {
///     CursorStep::Frame(frame) => frame,
///     other => panic!("{other:?}"),
/// };
/// assert_eq!((frame.kind, frame.payload(bytes)), (FrameKind::Data, &b"abc"[..]));
/// assert_eq!(cursor.next(&bytes[frame.end..]), CursorStep::More(0));
/// ```
#[derive(Clone, Copy, Debug, PartialEq, Eq)]
pub struct FrameCursor(sys::Reader);

impl FrameCursor {
    /// The longest payload that is read: a longer one is an error.
    pub const MAX_PAYLOAD: usize = sys::WT_MAX_FRAME_PAYLOAD;
    /// The most bytes that [`next`](Self::next) leaves to be passed again.
    pub const MAX_REST: usize = sys::WT_MAX_FRAME_REST;

    /// Creates a cursor at the start of a stream with this role.
    pub fn new(role: StreamRole) -> Self {
        FrameCursor(sys::reader_new(match role {
            StreamRole::BiRemote => sys::WT_READ_BI_REMOTE,
            StreamRole::BiLocal => sys::WT_READ_BI_LOCAL,
            StreamRole::UniRemote => sys::WT_READ_CONTROL,
            StreamRole::Session => sys::WT_READ_SESSION,
        }))
    }

    /// Finds the next frame in the bytes after those consumed before. Unknown frames are skipped, even
    /// if they arrive in parts. After a WebTransport frame all bytes are the application's: do not pass
    /// them.
    ///
    /// Which frame may follow which is for the caller to check, as that HEADERS come before DATA; only
    /// a WebTransport frame has to be the first.
    ///
    /// The codes of [`CursorStep::Fault`] are [`Code::H3_FRAME_UNEXPECTED`] and
    /// [`Code::H3_FRAME_ERROR`] for a frame that is not permitted here, [`Code::H3_ID_ERROR`] for an
    /// invalid session ID, and [`Code::H3_EXCESSIVE_LOAD`] for a payload above
    /// [`MAX_PAYLOAD`](Self::MAX_PAYLOAD) bytes. The cursor is then unchanged.
    #[allow(clippy::should_implement_trait)] // the name that the Rattle crate has
    pub fn next(&mut self, bytes: &[u8]) -> CursorStep {
        match sys::read_frame(&mut self.0, bytes) {
            (sys::WT_OK, frame, consumed, _) => {
                let kind = FrameKind::of(frame.kind);
                CursorStep::Frame(FrameSpan {
                    kind,
                    session_id: (kind == FrameKind::WebTransport).then_some(frame.session),
                    start: consumed - frame.length,
                    end: consumed,
                })
            }
            (sys::WT_MORE, _, consumed, _) => CursorStep::More(consumed),
            (_, _, _, code) => CursorStep::Fault(Code::new(code)),
        }
    }

    /// Checks that the stream may end after `rest`, the bytes that were not consumed.
    ///
    /// # Errors
    ///
    /// [`Code::H3_FRAME_ERROR`] if a frame has begun.
    pub fn finish(&self, rest: &[u8]) -> Result<(), Code> {
        match sys::read_end(&self.0, rest) {
            (sys::WT_OK, _) => Ok(()),
            (_, code) => Err(Code::new(code)),
        }
    }
}
