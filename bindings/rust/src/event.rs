//! What the streams of a connection give.
use crate::error::Code;
use crate::fields::FieldList;
use crate::malformed::Malformed;
use crate::sys;
use alloc::string::String;
use alloc::vec::Vec;

/// What a stream of the peer is for.
#[derive(Clone, Copy, Debug, PartialEq, Eq)]
pub enum Purpose {
    /// The control stream.
    Control,
    /// The encoder stream of QPACK.
    Encoder,
    /// The decoder stream of QPACK.
    Decoder,
    /// A stream of a session, of [`Connection::stopped`](crate::Connection::stopped) alone: of what comes
    /// [`Event::Joins`] tells.
    Session,
    /// A request, on a stream that a client opened.
    Message,
    /// A stream of an unknown or a reserved type.
    Ignored,
}

impl Purpose {
    pub(crate) fn number(self) -> u32 {
        match self {
            Purpose::Control => sys::WT_PURPOSE_CONTROL,
            Purpose::Encoder => sys::WT_PURPOSE_ENCODER,
            Purpose::Decoder => sys::WT_PURPOSE_DECODER,
            Purpose::Session => sys::WT_PURPOSE_SESSION,
            Purpose::Message => sys::WT_PURPOSE_MESSAGE,
            Purpose::Ignored => sys::WT_PURPOSE_IGNORED,
        }
    }

    fn of(number: u32) -> Self {
        match number {
            sys::WT_PURPOSE_CONTROL => Purpose::Control,
            sys::WT_PURPOSE_ENCODER => Purpose::Encoder,
            sys::WT_PURPOSE_DECODER => Purpose::Decoder,
            sys::WT_PURPOSE_SESSION => Purpose::Session,
            sys::WT_PURPOSE_MESSAGE => Purpose::Message,
            sys::WT_PURPOSE_IGNORED => Purpose::Ignored,
            number => unknown("purpose", number),
        }
    }
}

/// What a field section of a message is.
#[derive(Clone, Copy, Debug, PartialEq, Eq)]
pub enum HeadersKind {
    /// The header section of a request.
    Request,
    /// That of an interim response, with its status from 100 to 199. Another response follows.
    Interim(u32),
    /// That of the final response, with its status.
    Response(u32),
    /// The trailer section.
    Trailers,
}

/// Why a stream waits.
#[derive(Clone, Copy, Debug, PartialEq, Eq)]
pub enum Waits {
    /// For the session with this ID, until [`Connection::join`](crate::Connection::join) says what became
    /// of it.
    Session(u64),
    /// For the SETTINGS of the peer: the stream has a request for a session
    /// (draft-ietf-webtrans-http3-07, section 3.1).
    Settings,
    /// For the answer to its CONNECT request, until [`Stream::answer`](crate::Stream::answer).
    Answer,
}

impl Waits {
    pub(crate) fn of(number: u32, session: u64) -> Option<Self> {
        match number {
            sys::WT_WAITS_NOTHING => None,
            sys::WT_WAITS_SESSION => Some(Waits::Session(session)),
            sys::WT_WAITS_SETTINGS => Some(Waits::Settings),
            sys::WT_WAITS_ANSWER => Some(Waits::Answer),
            number => unknown("wait", number),
        }
    }
}

/// How the peer closed a session: an error code and a reason of its application.
#[derive(Clone, Debug, PartialEq, Eq)]
pub struct Close {
    code: u32,
    reason: String,
}

impl Close {
    /// Returns the error code of the application.
    pub fn code(&self) -> u32 {
        self.code
    }

    /// Returns the reason.
    pub fn reason(&self) -> &str {
        &self.reason
    }
}

/// What is next on a stream. The comment of each says what it requires of the caller.
#[derive(Clone, Debug, PartialEq, Eq)]
pub enum Event<'a> {
    /// What the stream is for, other than a session.
    Opened(Purpose),
    /// The stream belongs to the session with this ID. Pass what
    /// [`Connection::known`](crate::Connection::known) says of it to
    /// [`Connection::join`](crate::Connection::join).
    Joins(u64),
    /// The stream belongs to the session with this ID, which is open: its bytes follow, as
    /// [`StreamData`](Event::StreamData).
    Joined(u64),
    /// SETTINGS of the peer came, with this payload:
    /// [`Settings::read`](crate::settings::Settings::read) reads it. Read again the streams that wait for
    /// [`Waits::Settings`].
    Settings(&'a [u8]),
    /// GOAWAY: at a client the ID of the first request that is not processed, at a server that of a push
    /// (RFC 9114, section 5.2). A client sends no new request. What is sent is
    /// [`ControlSending::goaway`](crate::ControlSending::goaway).
    GoAway(u64),
    /// Another frame of the control stream: its type and its payload.
    Frame(u64, &'a [u8]),
    /// A field section of the message: what it is, and its fields. At a server a CONNECT request waits
    /// then for [`Stream::answer`](crate::Stream::answer).
    Headers(HeadersKind, FieldList),
    /// At a server, the header section of a request for a session. Send a
    /// [`SessionResponse`](crate::session::SessionResponse) by a [`Sending`](crate::Sending), and then call
    /// [`Stream::answer`](crate::Stream::answer).
    SessionRequested(FieldList),
    /// At a client, the header section of the response that accepts a session, with its status: call
    /// [`Sending::connected`](crate::Sending::connected).
    SessionReady(u32, FieldList),
    /// At a client, that of a final response that does not accept a session, with its status. What
    /// follows is the rest of an ordinary response.
    Rejected(u32, FieldList),
    /// The peer closed the session whose own stream this is. Reset and stop the streams of the session
    /// ([`Stream::belongs`](crate::Stream::belongs)) with
    /// [`Code::WEBTRANSPORT_SESSION_GONE`], end the own half of this one, and drop its
    /// [`Sending`](crate::Sending).
    SessionClosed(Close),
    /// The session whose own stream this is ended otherwise. Reset and stop its streams, as for
    /// [`SessionClosed`](Event::SessionClosed).
    ///
    /// Each session ends once, with this event or with `SessionClosed`, unless
    /// [`ConnectionError`](Event::ConnectionError) comes first.
    SessionLost,
    /// A datagram of the session whose own stream this is, which came in a capsule (RFC 9297, section
    /// 3.5). It is as one that [`Connection::datagram`](crate::Connection::datagram) returns.
    Datagram(Vec<u8>),
    /// The peer asks to end the session whose own stream this is soon. Until then it goes on
    /// (draft-ietf-webtrans-http3-07, section 4.6).
    Draining,
    /// The bytes had nothing for the application.
    Skipped,
    /// A piece of the content of the message, of at least one byte.
    Data(&'a [u8]),
    /// A piece of a stream of a session, of at least one byte.
    StreamData(&'a [u8]),
    /// A field section that is larger than the limits: its encoded size, if that is too large. The section
    /// is skipped. If it is not the trailer section nothing more of the message is given: a server may
    /// respond with status 431 (RFC 9114, section 4.2.2), and a client cancels the request.
    TooLarge(Option<u64>),
    /// The message is malformed, by this rule. It is an error of its stream, with the code
    /// [`Code::H3_MESSAGE_ERROR`]: reset and stop the stream. A server may first respond with status 400.
    Malformed(Malformed),
    /// An error of the stream: reset and stop it with the code. If it is the own stream of an open
    /// session, the next call of [`Connection::receive`](crate::Connection::receive) returns
    /// [`SessionLost`](Event::SessionLost).
    StreamError(Code),
    /// An error of the connection: close it with the code. No event follows on any stream, and every
    /// session is lost.
    ConnectionError(Code),
    /// The peer reset the stream before its last event. Reset the own half with the code, if there is one. For a
    /// stream of a session there is none: what becomes of the own half is the application's to decide, and
    /// [`from_http3`](crate::error::application_codes::from_http3) says which of its codes QUIC's is.
    Reset(Option<Code>),
    /// The stream ended, without an error. Nothing follows but [`More`](Self::More).
    End,
    /// Allocation failed in the library. The call can be repeated, with the bytes that were not consumed.
    NoMemory,
    /// The bytes that are left wait. Pass them again when the wait is over.
    Waits(Waits),
    /// More bytes are needed. Pass those that are left again, with more bytes after them. From a call other
    /// than `receive`: there is nothing to do.
    More,
}

/// The next event of a stream, and how many bytes are consumed with it.
#[derive(Clone, Debug, PartialEq, Eq)]
pub struct Received<'a> {
    /// How many bytes are consumed: the credit for QUIC's flow control.
    pub consumed: usize,
    /// The event.
    pub event: Event<'a>,
}

/// Returns the event of a call, with what it refers to in the bytes, the fields and the output.
pub(crate) fn event_of<'a>(
    event: &sys::Event,
    bytes: &'a [u8],
    fields: &[sys::Field],
    out: &[u8],
) -> Event<'a> {
    let status = event.number as u32;
    let bytes = || &bytes[event.offset..event.offset + event.length];
    let out = &out[..event.used];
    let list = || FieldList::of(&fields[..event.fields], out);
    match event.kind {
        sys::WT_EVENT_SETTINGS => Event::Settings(bytes()),
        sys::WT_EVENT_FRAME => Event::Frame(event.detail.into(), bytes()),
        sys::WT_EVENT_HEADERS => Event::Headers(headers_kind(event.detail, status), list()),
        sys::WT_EVENT_SESSION_REQUESTED => Event::SessionRequested(list()),
        sys::WT_EVENT_SESSION_READY => Event::SessionReady(status, list()),
        sys::WT_EVENT_REJECTED => Event::Rejected(status, list()),
        sys::WT_EVENT_SESSION_CLOSED => Event::SessionClosed(Close {
            code: event.number as u32,
            reason: String::from_utf8_lossy(out).into_owned(),
        }),
        sys::WT_EVENT_DATAGRAM => Event::Datagram(out.to_vec()),
        sys::WT_EVENT_DATA => Event::Data(bytes()),
        sys::WT_EVENT_STREAM_DATA => Event::StreamData(bytes()),
        _ => event_of_numbers(event),
    }
}

/// Returns an event that has numbers alone.
fn event_of_numbers(event: &sys::Event) -> Event<'static> {
    let code = Code::new(event.number);
    let number = (event.detail == 1).then_some(event.number);
    match event.kind {
        sys::WT_EVENT_MORE => Event::More,
        sys::WT_EVENT_WAITS => match Waits::of(event.detail, event.number) {
            Some(waits) => Event::Waits(waits),
            None => unknown("wait", event.detail),
        },
        sys::WT_EVENT_OPENED => Event::Opened(Purpose::of(event.detail)),
        sys::WT_EVENT_JOINS => Event::Joins(event.number),
        sys::WT_EVENT_JOINED => Event::Joined(event.number),
        sys::WT_EVENT_GOAWAY => Event::GoAway(event.number),
        sys::WT_EVENT_SESSION_LOST => Event::SessionLost,
        sys::WT_EVENT_DRAINING => Event::Draining,
        sys::WT_EVENT_SKIPPED => Event::Skipped,
        sys::WT_EVENT_TOO_LARGE => Event::TooLarge(number),
        sys::WT_EVENT_MALFORMED => Event::Malformed(Malformed::of(event.detail)),
        sys::WT_EVENT_STREAM_ERROR => Event::StreamError(code),
        sys::WT_EVENT_CONNECTION_ERROR => Event::ConnectionError(code),
        sys::WT_EVENT_RESET => Event::Reset(number.map(Code::new)),
        sys::WT_EVENT_END => Event::End,
        kind => unknown("event", kind),
    }
}

fn headers_kind(detail: u32, status: u32) -> HeadersKind {
    match detail {
        sys::WT_HEADERS_REQUEST => HeadersKind::Request,
        sys::WT_HEADERS_INTERIM => HeadersKind::Interim(status),
        sys::WT_HEADERS_RESPONSE => HeadersKind::Response(status),
        sys::WT_HEADERS_TRAILERS => HeadersKind::Trailers,
        detail => unknown("kind of a section", detail),
    }
}

/// The versions of the library with this soname return no other numbers.
pub(crate) fn unknown(what: &str, number: u32) -> ! {
    panic!("libwtransport returned the {what} {number}")
}
