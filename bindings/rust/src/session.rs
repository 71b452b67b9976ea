//! The first messages of a session: the request and the response (RFC 9220, section 3;
//! draft-ietf-webtrans-http3-02, section 3.3).
use crate::error::{ReadError, WriteError};
use crate::fields::FieldList;
use crate::sys;
use crate::varint::first_varint;
use alloc::string::{String, ToString};
use alloc::vec::Vec;
use core::fmt;

/// The request for a session, as a client sends it.
///
/// ```
/// use vesgrauf::session::SessionRequest;
///
/// let mut request = SessionRequest::new("https://example.com:4433/chat?room=1");
/// request.insert(b"origin", b"https://example.com");
/// let fields = request.fields()?;
/// assert_eq!(fields.first(b":authority"), Some(&b"example.com:4433"[..]));
/// assert_eq!(fields.first(b":path"), Some(&b"/chat?room=1"[..]));
/// assert_eq!(fields.get(5), Some((&b"origin"[..], &b"https://example.com"[..])));
/// # Ok::<(), vesgrauf::error::WriteError>(())
/// ```
#[derive(Clone, Debug)]
pub struct SessionRequest {
    url: String,
    fields: FieldList,
}

impl SessionRequest {
    /// Creates a request for the session at a URL, which [`write`](Self::write) reads.
    pub fn new(url: &str) -> Self {
        let (url, fields) = (url.into(), FieldList::new());
        SessionRequest { url, fields }
    }

    /// Appends a field. Names may be repeated.
    pub fn insert(&mut self, name: &[u8], value: &[u8]) {
        self.fields.push(name, value);
    }

    /// Returns the fields of the request, for [`Sending::headers`](crate::Sending::headers): the
    /// pseudo-header fields, and then the fields in their order. The URL is read as the URL Standard
    /// describes.
    ///
    /// # Errors
    ///
    /// Those of [`write`](Self::write).
    pub fn fields(&self) -> Result<FieldList, WriteError> {
        let mut frame = Vec::new();
        self.write(&mut frame)?;
        // after the type, which is one byte, and the length
        let (_, size) = first_varint(&frame[1..]).ok_or(WriteError::Invalid)?;
        FieldList::decode(&frame[1 + size..]).map_err(|_| WriteError::Memory)
    }

    /// Appends the HEADERS frame of the request, for programs with a connection of their own: what
    /// [`fields`](Self::fields) says, encoded.
    ///
    /// # Errors
    ///
    /// [`WriteError::Invalid`] if the URL is not one, or its scheme is not `https`; if the name of a
    /// field is empty, starts with a colon, has an upper-case letter or is no token; or if a value has a
    /// control character other than a tab, or starts or ends with a space or a tab.
    /// [`WriteError::Memory`].
    pub fn write(&self, out: &mut Vec<u8>) -> Result<(), WriteError> {
        let (fields, texts) = self.fields.parts();
        WriteError::result(sys::request_write(self.url.as_bytes(), fields, texts, out))
    }
}

/// The target of a request for a session.
#[derive(Clone, Debug, PartialEq, Eq)]
pub struct RequestTarget {
    /// The value of `:authority`.
    pub authority: Vec<u8>,
    /// The value of `:path`.
    pub path: Vec<u8>,
}

impl RequestTarget {
    /// Reads the request in a field section, the payload of a HEADERS frame. A
    /// [`Connection`](crate::Connection) checks more rules, and returns the fields.
    ///
    /// # Errors
    ///
    /// [`Code::QPACK_DECOMPRESSION_FAILED`](crate::error::Code::QPACK_DECOMPRESSION_FAILED), or
    /// [`Code::H3_MESSAGE_ERROR`](crate::error::Code::H3_MESSAGE_ERROR) for a section that is not a
    /// request for a session, of which [`HeadersParseError::of_request`] says why; and
    /// [`ReadError::Memory`].
    pub fn read(section: &[u8]) -> Result<Self, ReadError> {
        let mut authority = Vec::new();
        match sys::request_read(section, &mut authority) {
            (sys::WT_OK, size, _) => {
                let path = authority.split_off(size);
                Ok(RequestTarget { authority, path })
            }
            (answer, _, code) => Err(ReadError::of(answer, code)),
        }
    }
}

/// Why a field section is not the request for a session. The checks run in this order (RFC 9114, section
/// 4.3.1; RFC 9220, section 3).
#[derive(Clone, Copy, Debug, PartialEq, Eq)]
pub enum HeadersParseError {
    /// There is no `:method`.
    MissingMethod,
    /// The `:method` is not CONNECT.
    MethodNotConnect,
    /// There is no `:scheme`.
    MissingScheme,
    /// The `:scheme` is not `https`.
    SchemeNotHttps,
    /// There is no `:protocol`.
    MissingProtocol,
    /// The `:protocol` is not `webtransport`.
    ProtocolNotWebTransport,
    /// There is no `:authority`.
    MissingAuthority,
    /// There is no `:path`.
    MissingPath,
}

impl HeadersParseError {
    /// Returns why a field section is not the request for a session, or `None` if it is one.
    ///
    /// # Errors
    ///
    /// [`Code::QPACK_DECOMPRESSION_FAILED`](crate::error::Code::QPACK_DECOMPRESSION_FAILED), and
    /// [`ReadError::Memory`].
    pub fn of_request(section: &[u8]) -> Result<Option<Self>, ReadError> {
        use HeadersParseError::*;
        Ok(match sys::request_check(section) {
            (sys::WT_OK, fault, _) => match fault {
                sys::WT_REQUEST_OK => None,
                sys::WT_REQUEST_MISSING_METHOD => Some(MissingMethod),
                sys::WT_REQUEST_METHOD_NOT_CONNECT => Some(MethodNotConnect),
                sys::WT_REQUEST_MISSING_SCHEME => Some(MissingScheme),
                sys::WT_REQUEST_SCHEME_NOT_HTTPS => Some(SchemeNotHttps),
                sys::WT_REQUEST_MISSING_PROTOCOL => Some(MissingProtocol),
                sys::WT_REQUEST_PROTOCOL_NOT_WEBTRANSPORT => Some(ProtocolNotWebTransport),
                sys::WT_REQUEST_MISSING_AUTHORITY => Some(MissingAuthority),
                sys::WT_REQUEST_MISSING_PATH => Some(MissingPath),
                fault => panic!("libwtransport returned the fault {fault}"),
            },
            (answer, _, code) => return Err(ReadError::of(answer, code)),
        })
    }
}

impl fmt::Display for HeadersParseError {
    fn fmt(&self, f: &mut fmt::Formatter<'_>) -> fmt::Result {
        match sys::request_fault_name(*self as i32 + 1) {
            Some(name) => f.write_str(&name),
            None => fmt::Debug::fmt(self, f),
        }
    }
}

#[cfg(feature = "std")]
impl std::error::Error for HeadersParseError {}

/// The response to a request, as a server sends it: a status, and fields.
///
/// ```
/// use vesgrauf::session::SessionResponse;
///
/// let mut response = SessionResponse::with_status_code(404);
/// response.add(b"content-length", b"0");
/// assert_eq!(response.fields(), [(":status", "404"), ("content-length", "0")].into());
/// ```
#[derive(Clone, Debug)]
pub struct SessionResponse {
    status: u32,
    fields: FieldList,
}

impl SessionResponse {
    /// Creates a response with this status.
    pub fn with_status_code(status: u32) -> Self {
        let fields = FieldList::new();
        SessionResponse { status, fields }
    }

    /// Creates the response that accepts a session: 200, with the field that says by which draft. Browsers
    /// of today read it.
    pub fn ok() -> Self {
        let mut response = SessionResponse::with_status_code(200);
        response.add(b"sec-webtransport-http3-draft", b"draft02");
        response
    }

    /// Returns the status.
    pub fn code(&self) -> u32 {
        self.status
    }

    /// Appends a field. Names may be repeated.
    pub fn add(&mut self, name: &[u8], value: &[u8]) {
        self.fields.push(name, value);
    }

    /// Returns the fields of the response, for [`Sending::headers`](crate::Sending::headers), which checks
    /// them: `:status`, and then the fields in their order.
    pub fn fields(&self) -> FieldList {
        let status = self.status.to_string();
        let head = [(&b":status"[..], status.as_bytes())];
        head.into_iter().chain(&self.fields).collect()
    }

    /// Appends the HEADERS frame of the response, for programs with a connection of their own.
    ///
    /// # Errors
    ///
    /// [`WriteError::Invalid`] if the status is not from 100 to 599, or for a field that
    /// [`SessionRequest::write`] rejects; [`WriteError::Memory`].
    pub fn write(&self, out: &mut Vec<u8>) -> Result<(), WriteError> {
        let (fields, texts) = self.fields.parts();
        WriteError::result(sys::response_write(self.status, fields, texts, out))
    }

    /// Returns the status of the response in a field section, the payload of a HEADERS frame.
    ///
    /// # Errors
    ///
    /// [`Code::QPACK_DECOMPRESSION_FAILED`](crate::error::Code::QPACK_DECOMPRESSION_FAILED), or
    /// [`Code::H3_MESSAGE_ERROR`](crate::error::Code::H3_MESSAGE_ERROR) for a section without a
    /// `:status` of three digits from 100 to 599; and [`ReadError::Memory`].
    pub fn read_status(section: &[u8]) -> Result<u32, ReadError> {
        match sys::response_read(section) {
            (sys::WT_OK, status, _) => Ok(status.into()),
            (answer, _, code) => Err(ReadError::of(answer, code)),
        }
    }
}
