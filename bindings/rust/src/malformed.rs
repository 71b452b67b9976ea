//! Why a message is malformed.
use crate::error::Code;
use crate::event::unknown;
use crate::sys;
use core::fmt;

/// The rule that a message breaks (RFC 9114, section 4.1.2). Each is an error of its stream alone, with
/// the same code. Of several rules that a field section breaks, any may be reported.
#[derive(Clone, Copy, Debug, PartialEq, Eq)]
pub enum Malformed {
    /// The name of a field is empty, has an upper-case letter or is not a token (RFC 9114, section
    /// 4.2; RFC 9110, section 5.1).
    InvalidName,
    /// The value of a field has a control character other than a tab, or a space or a tab at an end
    /// (RFC 9110, section 5.5; RFC 9114, section 10.3).
    InvalidValue,
    /// There is a field that is specific to a connection of HTTP/1.1, such as `transfer-encoding`
    /// (RFC 9114, section 4.2).
    ConnectionField,
    /// There is a `te` field outside of a request, or with another value than `trailers` (RFC 9114,
    /// section 4.2).
    InvalidTe,
    /// A pseudo-header field is not defined for this kind of section (RFC 9114, section 4.3).
    UnknownPseudoHeader,
    /// A pseudo-header field follows another field (RFC 9114, section 4.3).
    LatePseudoHeader,
    /// A pseudo-header field is repeated (RFC 9114, section 4.3).
    RepeatedPseudoHeader,
    /// A `content-length` is not a decimal number below 2^62, or two of them differ; or a response that
    /// is sent has one, with status 1xx or 204, or 2xx to a CONNECT request (RFC 9110, sections 8.6 and
    /// 9.3.6).
    InvalidContentLength,
    /// A request has no `:method` (RFC 9114, section 4.3.1).
    MissingMethod,
    /// The `:method` is not a token (RFC 9110, section 9.1).
    InvalidMethod,
    /// A request other than CONNECT, or an extended CONNECT, has no `:scheme` (RFC 9114, section
    /// 4.3.1; RFC 8441, section 4).
    MissingScheme,
    /// The `:scheme` is not a URI scheme (RFC 3986, section 3.1), or not `https` in a request for a
    /// session of WebTransport (draft-ietf-webtrans-http3-02, section 3.3).
    InvalidScheme,
    /// A request other than CONNECT, or an extended CONNECT, has no `:path` (RFC 9114, section
    /// 4.3.1; RFC 8441, section 4).
    MissingPath,
    /// The `:path` of a URI with the scheme `http` or `https` is invalid (RFC 9114, section 4.3.1).
    InvalidPath,
    /// A CONNECT request, or one with the scheme `http` or `https`, has no authority, or an empty
    /// one (RFC 9114, sections 4.3.1 and 4.4).
    MissingAuthority,
    /// In such a request `:authority` and `host` differ, there are two `host` fields, or there is
    /// user information (RFC 9114, section 4.3.1; RFC 9110, section 7.2).
    InvalidAuthority,
    /// A CONNECT request without `:protocol` has a `:scheme` or a `:path` (RFC 9114, section 4.4).
    ConnectWithTarget,
    /// There is a `:protocol` in a request other than CONNECT, or at an endpoint that does not allow
    /// extended CONNECT (RFC 8441, section 4; RFC 9220, section 3).
    UnexpectedProtocol,
    /// The `:protocol` is not a token (RFC 8441, section 4).
    InvalidProtocol,
    /// A request for a session, or a response that accepts it, has a field of content:
    /// `content-length` or `content-type` (RFC 9297, section 3.2).
    ContentField,
    /// A response has no `:status` (RFC 9114, section 4.3.2).
    MissingStatus,
    /// The `:status` is not a number of three digits from 100 on, or it is 101 (RFC 9110, section
    /// 15; RFC 9114, section 4.5).
    InvalidStatus,
    /// A response that accepts a session has status 204, 205 or 206 (RFC 9297, section 3.2).
    UnexpectedStatus,
    /// The message ended before the header section of the request or the final response (RFC 9114,
    /// section 4.1).
    MissingHead,
    /// There is more content than announced (RFC 9114, section 4.1.2).
    ContentTooLong,
    /// There is less content than announced (RFC 9114, section 4.1.2).
    ContentTooShort,
}

impl Malformed {
    /// Returns the error code, [`Code::H3_MESSAGE_ERROR`] (RFC 9114, section 4.1.2).
    pub fn code(&self) -> Code {
        Code::H3_MESSAGE_ERROR
    }

    pub(crate) fn of(rule: u32) -> Self {
        match rule {
            sys::WT_RULE_INVALID_NAME => Malformed::InvalidName,
            sys::WT_RULE_INVALID_VALUE => Malformed::InvalidValue,
            sys::WT_RULE_CONNECTION_FIELD => Malformed::ConnectionField,
            sys::WT_RULE_INVALID_TE => Malformed::InvalidTe,
            sys::WT_RULE_UNKNOWN_PSEUDO_HEADER => Malformed::UnknownPseudoHeader,
            sys::WT_RULE_LATE_PSEUDO_HEADER => Malformed::LatePseudoHeader,
            sys::WT_RULE_REPEATED_PSEUDO_HEADER => Malformed::RepeatedPseudoHeader,
            sys::WT_RULE_INVALID_CONTENT_LENGTH => Malformed::InvalidContentLength,
            sys::WT_RULE_MISSING_METHOD => Malformed::MissingMethod,
            sys::WT_RULE_INVALID_METHOD => Malformed::InvalidMethod,
            sys::WT_RULE_MISSING_SCHEME => Malformed::MissingScheme,
            sys::WT_RULE_INVALID_SCHEME => Malformed::InvalidScheme,
            sys::WT_RULE_MISSING_PATH => Malformed::MissingPath,
            sys::WT_RULE_INVALID_PATH => Malformed::InvalidPath,
            sys::WT_RULE_MISSING_AUTHORITY => Malformed::MissingAuthority,
            sys::WT_RULE_INVALID_AUTHORITY => Malformed::InvalidAuthority,
            sys::WT_RULE_CONNECT_WITH_TARGET => Malformed::ConnectWithTarget,
            sys::WT_RULE_UNEXPECTED_PROTOCOL => Malformed::UnexpectedProtocol,
            sys::WT_RULE_INVALID_PROTOCOL => Malformed::InvalidProtocol,
            sys::WT_RULE_CONTENT_FIELD => Malformed::ContentField,
            sys::WT_RULE_MISSING_STATUS => Malformed::MissingStatus,
            sys::WT_RULE_INVALID_STATUS => Malformed::InvalidStatus,
            sys::WT_RULE_UNEXPECTED_STATUS => Malformed::UnexpectedStatus,
            sys::WT_RULE_MISSING_HEAD => Malformed::MissingHead,
            sys::WT_RULE_CONTENT_TOO_LONG => Malformed::ContentTooLong,
            sys::WT_RULE_CONTENT_TOO_SHORT => Malformed::ContentTooShort,
            rule => unknown("rule", rule),
        }
    }
}

impl fmt::Display for Malformed {
    fn fmt(&self, f: &mut fmt::Formatter<'_>) -> fmt::Result {
        f.write_str(match self {
            Malformed::InvalidName => "a field has an invalid name",
            Malformed::InvalidValue => "a field has an invalid value",
            Malformed::ConnectionField => "a field is specific to a connection",
            Malformed::InvalidTe => "the te field is invalid",
            Malformed::UnknownPseudoHeader => "a pseudo-header field is not defined here",
            Malformed::LatePseudoHeader => "a pseudo-header field follows another field",
            Malformed::RepeatedPseudoHeader => "a pseudo-header field is repeated",
            Malformed::InvalidContentLength => "the content-length is invalid",
            Malformed::MissingMethod => "there is no :method",
            Malformed::InvalidMethod => "the :method is invalid",
            Malformed::MissingScheme => "there is no :scheme",
            Malformed::InvalidScheme => "the :scheme is invalid",
            Malformed::MissingPath => "there is no :path",
            Malformed::InvalidPath => "the :path is invalid",
            Malformed::MissingAuthority => "there is no authority",
            Malformed::InvalidAuthority => "the authority is invalid",
            Malformed::ConnectWithTarget => "a CONNECT request has a :scheme or a :path",
            Malformed::UnexpectedProtocol => "the :protocol is not allowed",
            Malformed::InvalidProtocol => "the :protocol is invalid",
            Malformed::ContentField => "a session's message has a field of content",
            Malformed::MissingStatus => "there is no :status",
            Malformed::InvalidStatus => "the :status is invalid",
            Malformed::UnexpectedStatus => "the :status does not go with a session",
            Malformed::MissingHead => "there is no header section",
            Malformed::ContentTooLong => "the content is longer than announced",
            Malformed::ContentTooShort => "the content is shorter than announced",
        })
    }
}

#[cfg(feature = "std")]
impl std::error::Error for Malformed {}
