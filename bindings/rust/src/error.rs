//! Error codes of HTTP/3, QPACK, HTTP datagrams and WebTransport (RFC 9114, section 8), and the errors
//! of this crate.
use crate::sys;
use alloc::string::String;
use core::fmt;

/// An error code of HTTP/3: any number, whether it is registered or not (RFC 9114, section 8.1).
///
/// ```
/// use vesgrauf::error::{Code, ErrorScope};
///
/// let code = Code::H3_FRAME_UNEXPECTED;
/// assert_eq!(code.number(), 0x105);
/// assert_eq!(code.name().as_deref(), Some("H3_FRAME_UNEXPECTED"));
/// assert_eq!(code.to_string(), "H3_FRAME_UNEXPECTED (0x105)");
/// assert_eq!(Code::H3_MESSAGE_ERROR.scope(), Some(ErrorScope::Stream));
/// assert_eq!(Code::new(0x21).name(), None);
/// ```
#[derive(Clone, Copy, PartialEq, Eq, Hash, PartialOrd, Ord)]
pub struct Code(u64);

macro_rules! codes {
    ($($(#[$doc:meta])* $name:ident: $constant:ident;)*) => {
        impl Code {
            $($(#[$doc])* pub const $name: Code = Code(sys::$constant);)*
        }
    };
}

codes! {
    /// A datagram or a capsule cannot be parsed (RFC 9297, section 5.2).
    H3_DATAGRAM_ERROR: WT_H3_DATAGRAM_ERROR;
    /// The connection or stream is closed without an error (RFC 9114, section 8.1).
    H3_NO_ERROR: WT_H3_NO_ERROR;
    /// The peer violated the protocol; no more specific code is used (RFC 9114, section 8.1).
    H3_GENERAL_PROTOCOL_ERROR: WT_H3_GENERAL_PROTOCOL_ERROR;
    /// An internal error occurred in the HTTP stack (RFC 9114, section 8.1).
    H3_INTERNAL_ERROR: WT_H3_INTERNAL_ERROR;
    /// The peer created a stream that is not accepted (RFC 9114, section 8.1).
    H3_STREAM_CREATION_ERROR: WT_H3_STREAM_CREATION_ERROR;
    /// A stream that the connection requires was closed or reset (RFC 9114, section 8.1).
    H3_CLOSED_CRITICAL_STREAM: WT_H3_CLOSED_CRITICAL_STREAM;
    /// A frame is not permitted in this state or on this stream (RFC 9114, section 8.1).
    H3_FRAME_UNEXPECTED: WT_H3_FRAME_UNEXPECTED;
    /// A frame violates its layout or has an invalid size (RFC 9114, section 8.1).
    H3_FRAME_ERROR: WT_H3_FRAME_ERROR;
    /// The peer may be generating excessive load (RFC 9114, section 8.1).
    H3_EXCESSIVE_LOAD: WT_H3_EXCESSIVE_LOAD;
    /// An identifier was used incorrectly (RFC 9114, section 8.1).
    H3_ID_ERROR: WT_H3_ID_ERROR;
    /// The payload of a SETTINGS frame has an error (RFC 9114, section 8.1).
    H3_SETTINGS_ERROR: WT_H3_SETTINGS_ERROR;
    /// No SETTINGS frame was received at the start of the control stream (RFC 9114, section 8.1).
    H3_MISSING_SETTINGS: WT_H3_MISSING_SETTINGS;
    /// The server rejected the request without processing it (RFC 9114, section 8.1).
    H3_REQUEST_REJECTED: WT_H3_REQUEST_REJECTED;
    /// The request or its response is cancelled (RFC 9114, section 8.1).
    H3_REQUEST_CANCELLED: WT_H3_REQUEST_CANCELLED;
    /// The client's stream ended without a complete request (RFC 9114, section 8.1).
    H3_REQUEST_INCOMPLETE: WT_H3_REQUEST_INCOMPLETE;
    /// An HTTP message is malformed (RFC 9114, section 8.1).
    H3_MESSAGE_ERROR: WT_H3_MESSAGE_ERROR;
    /// The TCP connection of a CONNECT request was reset or closed abnormally (RFC 9114, section
    /// 8.1).
    H3_CONNECT_ERROR: WT_H3_CONNECT_ERROR;
    /// The requested operation cannot be served over HTTP/3 (RFC 9114, section 8.1).
    H3_VERSION_FALLBACK: WT_H3_VERSION_FALLBACK;
    /// A field section cannot be decoded (RFC 9204, section 6).
    QPACK_DECOMPRESSION_FAILED: WT_QPACK_DECOMPRESSION_FAILED;
    /// An instruction on the encoder stream cannot be interpreted (RFC 9204, section 6).
    QPACK_ENCODER_STREAM_ERROR: WT_QPACK_ENCODER_STREAM_ERROR;
    /// An instruction on the decoder stream cannot be interpreted (RFC 9204, section 6).
    QPACK_DECODER_STREAM_ERROR: WT_QPACK_DECODER_STREAM_ERROR;
    /// A stream for a session that is to come was not kept (draft-ietf-webtrans-http3-07).
    WEBTRANSPORT_BUFFERED_STREAM_REJECTED: WT_WEBTRANSPORT_BUFFERED_STREAM_REJECTED;
    /// The session of a stream is over (draft-ietf-webtrans-http3-07).
    WEBTRANSPORT_SESSION_GONE: WT_WEBTRANSPORT_SESSION_GONE;
    /// WT_FLOW_CONTROL_ERROR of later drafts of WebTransport over HTTP/3.
    WT_FLOW_CONTROL_ERROR: WT_WT_FLOW_CONTROL_ERROR;
    /// WT_ALPN_ERROR of later drafts.
    WT_ALPN_ERROR: WT_WT_ALPN_ERROR;
    /// WT_REQUIREMENTS_NOT_MET of later drafts.
    WT_REQUIREMENTS_NOT_MET: WT_WT_REQUIREMENTS_NOT_MET;
}

impl Code {
    /// Creates the code with this number.
    pub const fn new(number: u64) -> Self {
        Code(number)
    }

    /// Returns the number.
    pub const fn number(self) -> u64 {
        self.0
    }

    /// Returns the name, or `None` if no code is registered with this number. It is then to be treated
    /// as H3_NO_ERROR (RFC 9114, section 9).
    pub fn name(self) -> Option<String> {
        sys::code_name(self.0)
    }

    /// Returns what a registered code ends, or `None` if it is not registered.
    pub fn scope(self) -> Option<ErrorScope> {
        match sys::code_scope(self.0) {
            sys::WT_SCOPE_STREAM => Some(ErrorScope::Stream),
            sys::WT_SCOPE_CONNECTION => Some(ErrorScope::Connection),
            sys::WT_SCOPE_EITHER => Some(ErrorScope::Either),
            _ => None,
        }
    }
}

impl From<Code> for u64 {
    fn from(code: Code) -> u64 {
        code.0
    }
}

impl fmt::Display for Code {
    fn fmt(&self, f: &mut fmt::Formatter<'_>) -> fmt::Result {
        match self.name() {
            Some(name) => write!(f, "{name} ({:#x})", self.0),
            None => write!(f, "{:#x}", self.0),
        }
    }
}

impl fmt::Debug for Code {
    fn fmt(&self, f: &mut fmt::Formatter<'_>) -> fmt::Result {
        fmt::Display::fmt(self, f)
    }
}

/// What an error ends.
#[derive(Clone, Copy, Debug, PartialEq, Eq, Hash)]
pub enum ErrorScope {
    /// The stream.
    Stream,
    /// The connection.
    Connection,
    /// Either, as the rule says that is violated.
    Either,
}

/// Error codes of applications as codes of HTTP/3 (draft-ietf-webtrans-http3-02, section 4.3).
pub mod application_codes {
    use super::Code;
    use crate::sys;

    /// Returns the code with which a stream of a session is reset or stopped, for a code of the
    /// application.
    ///
    /// ```
    /// use vesgrauf::error::application_codes::{from_http3, to_http3};
    ///
    /// assert_eq!(to_http3(0).number(), 0x52e4a40fa8db);
    /// assert_eq!(from_http3(to_http3(7)), Some(7));
    /// ```
    pub fn to_http3(code: u32) -> Code {
        Code::new(sys::application_code_to_http3(code))
    }

    /// Returns the code of the application, or `None` if no such code has this number.
    pub fn from_http3(number: Code) -> Option<u32> {
        sys::application_code_from_http3(number.number())
    }
}

/// Why something that came cannot be read.
#[derive(Clone, Copy, Debug, PartialEq, Eq)]
pub enum ReadError {
    /// It has a fault, with this error code.
    Fault(Code),
    /// Allocation failed in the library. The call can be repeated.
    Memory,
}

impl ReadError {
    /// Returns the error code, or `None` if allocation failed.
    pub fn code(self) -> Option<Code> {
        match self {
            ReadError::Fault(code) => Some(code),
            ReadError::Memory => None,
        }
    }

    /// Returns the error that an answer other than `WT_OK` means.
    pub(crate) fn of(answer: i32, code: u64) -> Self {
        match answer {
            sys::WT_ERROR => ReadError::Fault(Code(code)),
            sys::WT_MEMORY => ReadError::Memory,
            answer => panic!("libwtransport returned {answer}"),
        }
    }
}

/// Why something was not written. What it was to be appended to is unchanged.
#[derive(Clone, Copy, Debug, PartialEq, Eq)]
pub enum WriteError {
    /// An argument is not allowed; the call says which are.
    Invalid,
    /// Allocation failed in the library. The call can be repeated.
    Memory,
}

impl WriteError {
    /// Returns the result that an answer means.
    pub(crate) fn result(answer: i32) -> Result<(), Self> {
        match answer {
            sys::WT_OK => Ok(()),
            sys::WT_INVALID => Err(WriteError::Invalid),
            sys::WT_MEMORY => Err(WriteError::Memory),
            answer => panic!("libwtransport returned {answer}"),
        }
    }
}

impl fmt::Display for ReadError {
    fn fmt(&self, f: &mut fmt::Formatter<'_>) -> fmt::Result {
        match self {
            ReadError::Fault(code) => code.fmt(f),
            ReadError::Memory => f.write_str("out of memory"),
        }
    }
}

impl fmt::Display for WriteError {
    fn fmt(&self, f: &mut fmt::Formatter<'_>) -> fmt::Result {
        f.write_str(match self {
            WriteError::Invalid => "an argument is not allowed",
            WriteError::Memory => "out of memory",
        })
    }
}

#[cfg(feature = "std")]
impl std::error::Error for ReadError {}
#[cfg(feature = "std")]
impl std::error::Error for WriteError {}
