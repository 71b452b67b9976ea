//! What a connection sends: the messages of requests and responses, the control stream, and what belongs to
//! a session (RFC 9114, sections 4 and 6.2.1; WebTransport over HTTP/3).
//!
//! A [`Sending`] and a [`ControlSending`] say what may be sent next on their streams. A call that may not be
//! made now is [`Refused`] by name. Each call appends all of its bytes, or none of them, and changes the
//! state only then. The bytes are to be sent right after those of the calls before.
use crate::connection::{Asked, Connection};
use crate::fields::FieldList;
use crate::malformed::Malformed;
use crate::settings::Settings;
use crate::sys;
use alloc::vec::Vec;
use core::fmt;

/// Why something may not be sent, by itself.
#[derive(Clone, Copy, Debug, PartialEq, Eq)]
pub enum SendError {
    /// This may not be sent now (RFC 9114, sections 4.1 and 4.4).
    Unexpected,
    /// Bytes of the last DATA frame are still to be sent (RFC 9114, section 7.1).
    DataMissing,
    /// There are more bytes than the DATA frame has left (RFC 9114, section 7.1).
    DataExceeded,
    /// A DATA frame would have no bytes.
    EmptyData,
    /// A section is larger than the peer accepts (RFC 9114, section 4.2.2), a frame would have 2^62 bytes or
    /// more, SETTINGS more than 4,096 bytes, or a reason more than 1,024.
    TooLarge,
    /// There were 64 interim responses, as many as a [`Connection`] reads.
    TooManyInterim,
    /// The ID of a GOAWAY is not that of a request (RFC 9114, section 7.2.6), or it is 2^62 or more.
    InvalidId,
    /// The ID of a GOAWAY is above that of the last one (RFC 9114, section 5.2).
    IdRises,
    /// The peer does not support what a request asks for (RFC 9220, section 3; WebTransport).
    Unsupported,
    /// The settings are none that [`Settings::write`] writes.
    InvalidSettings,
    /// The message would be malformed: it breaks this rule (RFC 9114, section 4.1.2).
    Malformed(Malformed),
    /// Allocation failed in the library. The call can be repeated.
    Memory,
}

impl SendError {
    /// Returns the error of a reason.
    fn of(why: u32) -> Self {
        match why {
            sys::WT_SEND_UNEXPECTED => SendError::Unexpected,
            sys::WT_SEND_DATA_MISSING => SendError::DataMissing,
            sys::WT_SEND_DATA_EXCEEDED => SendError::DataExceeded,
            sys::WT_SEND_EMPTY_DATA => SendError::EmptyData,
            sys::WT_SEND_TOO_LARGE => SendError::TooLarge,
            sys::WT_SEND_TOO_MANY_INTERIM => SendError::TooManyInterim,
            sys::WT_SEND_INVALID_ID => SendError::InvalidId,
            sys::WT_SEND_ID_RISES => SendError::IdRises,
            sys::WT_SEND_UNSUPPORTED => SendError::Unsupported,
            rule => SendError::Malformed(Malformed::of(rule)),
        }
    }
}

impl fmt::Display for SendError {
    fn fmt(&self, f: &mut fmt::Formatter<'_>) -> fmt::Result {
        f.write_str(match self {
            SendError::Unexpected => "this may not be sent now",
            SendError::DataMissing => "bytes of a DATA frame are missing",
            SendError::DataExceeded => "there are more bytes than the DATA frame has left",
            SendError::EmptyData => "a DATA frame would have no bytes",
            SendError::TooLarge => "it is too large",
            SendError::TooManyInterim => "there are too many interim responses",
            SendError::InvalidId => "the ID is not that of a request",
            SendError::IdRises => "the ID is above the last one",
            SendError::Unsupported => "the peer does not support this",
            SendError::InvalidSettings => "the settings are invalid",
            SendError::Malformed(rule) => return rule.fmt(f),
            SendError::Memory => "out of memory",
        })
    }
}

/// The reason why a call appended nothing and changed nothing.
#[derive(Clone, Copy, Debug, PartialEq, Eq)]
pub enum Refused {
    /// An error ended the connection.
    Over,
    /// The ID is not that of a bidirectional stream of a client, or the message is one of the other side.
    InvalidId,
    /// GOAWAY of the server came: no request is sent after it (RFC 9114, section 5.2).
    GoAway,
    /// The session is not open: it has no answer with a 2xx status, or this end closed it.
    SessionNotOpen,
    /// It may not be sent now, or there is no memory for it.
    Send(SendError),
}

impl Refused {
    /// Returns the result of an answer and its reason. `invalid` is what the answer WT_INVALID means.
    fn result((answer, why): (i32, u32), invalid: Option<Refused>) -> Result<(), Self> {
        match (answer, invalid) {
            (sys::WT_OK, _) => Ok(()),
            (sys::WT_REFUSED, _) => Err(Refused::Send(SendError::of(why))),
            (sys::WT_MEMORY, _) => Err(Refused::Send(SendError::Memory)),
            (sys::WT_INVALID, Some(refused)) => Err(refused),
            (answer, _) => panic!("libwtransport returned {answer}"),
        }
    }

    /// Returns the result of a call for which the session is to be open.
    fn in_session(told: (i32, u32)) -> Result<(), Self> {
        Refused::result(told, None).map_err(|refused| match refused {
            Refused::Send(SendError::Unexpected) => Refused::SessionNotOpen,
            refused => refused,
        })
    }
}

impl From<SendError> for Refused {
    fn from(error: SendError) -> Self {
        Refused::Send(error)
    }
}

impl fmt::Display for Refused {
    fn fmt(&self, f: &mut fmt::Formatter<'_>) -> fmt::Result {
        f.write_str(match self {
            Refused::Over => "an error ended the connection",
            Refused::InvalidId => "this endpoint sends no such message on a stream with this ID",
            Refused::GoAway => "the server goes away",
            Refused::SessionNotOpen => "the session is not open",
            Refused::Send(error) => return error.fmt(f),
        })
    }
}

#[cfg(feature = "std")]
impl std::error::Error for SendError {}
#[cfg(feature = "std")]
impl std::error::Error for Refused {}

/// The sending side of the stream of a request: at a client the request, and at a server the response. It has
/// no bytes.
///
/// A response with content, whose bytes are sent in two pieces:
///
/// ```
/// use vesgrauf::fields::FieldList;
/// use vesgrauf::malformed::Malformed;
/// use vesgrauf::sending::{Refused, SendError, Sending};
/// use vesgrauf::{Asked, Connection, Endpoint, Limits};
///
/// let limits = Limits { max_section: 65_536, max_fields: 65_536, max_datagram: 1_500 };
/// let connection = Connection::new(Endpoint::server(limits)).unwrap();
/// let mut sending = Sending::response(&connection, 0, Asked::Other)?;
/// let mut out = Vec::new();
/// assert_eq!(sending.data(5, &mut out), Err(SendError::Unexpected.into())); // no head yet
/// sending.headers(&FieldList::from([(":status", "200"), ("content-length", "5")]), &mut out)?;
/// sending.data(5, &mut out)?; // the head of a DATA frame
/// out.extend_from_slice(b"he");
/// sending.sent(2)?;
/// assert_eq!(sending.finish(), Err(SendError::DataMissing.into()));
/// out.extend_from_slice(b"llo");
/// sending.sent(3)?;
/// let more = Malformed::ContentTooLong;
/// assert_eq!(sending.data(1, &mut out), Err(SendError::Malformed(more).into()));
/// sending.finish()?; // the QUIC stream is to be ended after `out`
/// assert!(out.ends_with(b"\x00\x05hello"));
/// # Ok::<(), Refused>(())
/// ```
///
/// The example of the [crate](crate) has a session.
#[derive(Clone, Debug, PartialEq, Eq)]
pub struct Sending(sys::Sending);

impl Sending {
    /// Creates the sending side of a request, at a client, by the ID of its stream. What may be sent is by
    /// the settings of the server as they are now: before they came each has its default, with which no
    /// session is possible.
    ///
    /// # Errors
    ///
    /// [`Refused::Over`]; [`Refused::InvalidId`] at a server, and for the ID of another stream than a
    /// bidirectional one of a client; and [`Refused::GoAway`].
    pub fn request(connection: &Connection, id: u64) -> Result<Self, Refused> {
        Sending::begun(sys::sending_request(&connection.state, id), connection)
    }

    /// Creates the sending side of the response to a request that came, at a server, by the ID of its stream
    /// and by what it asks for: [`Asked::Session`] after
    /// [`SessionRequested`](crate::Event::SessionRequested), and [`Asked::of`] its fields after
    /// [`Headers`](crate::Event::Headers).
    ///
    /// # Errors
    ///
    /// [`Refused::Over`], and [`Refused::InvalidId`] at a client, and for the ID of another stream than a
    /// bidirectional one of a client.
    pub fn response(connection: &Connection, id: u64, asked: Asked) -> Result<Self, Refused> {
        let told = sys::sending_response(&connection.state, id, asked.number());
        Sending::begun(told, connection)
    }

    /// Returns the state that a call began on a connection.
    fn begun((answer, state): (i32, sys::Sending), on: &Connection) -> Result<Self, Refused> {
        match answer {
            sys::WT_OK => Ok(Sending(state)),
            sys::WT_INVALID => Err(Refused::InvalidId),
            sys::WT_REFUSED if on.is_over() => Err(Refused::Over),
            sys::WT_REFUSED => Err(Refused::GoAway),
            answer => panic!("libwtransport returned {answer}"),
        }
    }

    /// Returns how many bytes of the last DATA frame are still to be sent.
    pub fn owed(&self) -> u64 {
        sys::sending_owed(&self.0)
    }

    /// Appends a HEADERS frame: that of a request, of an interim response, or of the final one. The fields
    /// are those of the message, with its pseudo-header fields first. They are checked by the rules of their
    /// message, and written in their order; their bytes need not be UTF-8.
    ///
    /// Content or the end may follow a request, but a CONNECT waits for its answer. A 2xx response to a
    /// request for a session opens it: call [`Stream::answer`](crate::Stream::answer) too.
    ///
    /// # Errors
    ///
    /// [`SendError::Malformed`] with a rule that the fields break; [`SendError::Unexpected`] after the head of
    /// the message; [`SendError::TooLarge`] for more than the peer accepts; [`SendError::Unsupported`] for a
    /// session; [`SendError::TooManyInterim`]; and [`SendError::Memory`].
    pub fn headers(&mut self, fields: &FieldList, out: &mut Vec<u8>) -> Result<(), Refused> {
        let (fields, texts) = fields.parts();
        Refused::result(sys::sending_headers(&mut self.0, fields, texts, out), None)
    }

    /// Appends the head of a DATA frame with so many bytes. Send these bytes right after it, in as many pieces
    /// as you like, and count them by [`sent`](Self::sent): they are not passed, and need not be copied.
    ///
    /// # Errors
    ///
    /// [`SendError::Unexpected`] where no content may be; [`SendError::DataMissing`];
    /// [`SendError::EmptyData`]; [`SendError::TooLarge`] from 2^62 on; or [`SendError::Malformed`] with
    /// [`Malformed::ContentTooLong`] for more than `content-length` announced.
    pub fn data(&mut self, length: u64, out: &mut Vec<u8>) -> Result<(), Refused> {
        Refused::result(sys::sending_data(&mut self.0, length, out), None)
    }

    /// Counts bytes of the last DATA frame that were sent.
    ///
    /// # Errors
    ///
    /// [`SendError::DataExceeded`] if fewer are still to be sent.
    pub fn sent(&mut self, length: u64) -> Result<(), Refused> {
        Refused::result(sys::sending_sent(&mut self.0, length), None)
    }

    /// Appends a DATA frame with these bytes, as [`data`](Self::data) and [`sent`](Self::sent) do. Without
    /// bytes it appends nothing.
    ///
    /// # Errors
    ///
    /// Those of [`data`](Self::data).
    pub fn content(&mut self, bytes: &[u8], out: &mut Vec<u8>) -> Result<(), Refused> {
        if bytes.is_empty() {
            return Ok(());
        }
        let length = bytes.len() as u64;
        self.data(length, out)?;
        out.extend_from_slice(bytes);
        self.sent(length)
    }

    /// Appends the HEADERS frame of trailers, after which the message ends.
    ///
    /// # Errors
    ///
    /// Those of [`headers`](Self::headers), of which [`SendError::Unexpected`] where no trailers may be;
    /// [`SendError::DataMissing`]; and [`SendError::Malformed`] with [`Malformed::ContentTooShort`] for less
    /// content than `content-length` announced.
    pub fn trailers(&mut self, fields: &FieldList, out: &mut Vec<u8>) -> Result<(), Refused> {
        let (fields, texts) = fields.parts();
        Refused::result(sys::sending_trailers(&mut self.0, fields, texts, out), None)
    }

    /// Ends the message: the QUIC stream is to be ended after the last bytes that were appended.
    ///
    /// # Errors
    ///
    /// [`SendError::DataMissing`]; [`SendError::Malformed`] with [`Malformed::MissingHead`] before the head of
    /// the message, and with [`Malformed::ContentTooShort`]; or [`SendError::Unexpected`] after the end.
    pub fn finish(&mut self) -> Result<(), Refused> {
        Refused::result(sys::sending_finish(&mut self.0), None)
    }

    /// Opens the session or the tunnel, at a client: a 2xx response to the CONNECT of this stream came, as
    /// [`SessionReady`](crate::Event::SessionReady) says of a session.
    ///
    /// # Errors
    ///
    /// [`SendError::Unexpected`] on another stream, and after the first time.
    pub fn connected(&mut self) -> Result<(), Refused> {
        Refused::result(sys::sending_connected(&mut self.0), None)
    }

    /// Appends the first bytes of a unidirectional stream of the session. All that follows is the
    /// application's.
    ///
    /// # Errors
    ///
    /// [`Refused::SessionNotOpen`].
    pub fn unidirectional(&self, out: &mut Vec<u8>) -> Result<(), Refused> {
        Refused::in_session(sys::sending_unidirectional(&self.0, out))
    }

    /// Appends the first bytes of a bidirectional stream of the session. All that follows is the
    /// application's. The peer's half of the stream is [`Stream::of_session`](crate::Stream::of_session).
    ///
    /// # Errors
    ///
    /// [`Refused::SessionNotOpen`].
    pub fn bidirectional(&self, out: &mut Vec<u8>) -> Result<(), Refused> {
        Refused::in_session(sys::sending_bidirectional(&self.0, out))
    }

    /// Appends the first bytes of a datagram of the session. The payload is all that follows.
    ///
    /// # Errors
    ///
    /// [`Refused::SessionNotOpen`].
    pub fn datagram(&self, out: &mut Vec<u8>) -> Result<(), Refused> {
        Refused::in_session(sys::sending_datagram(&self.0, out))
    }

    /// Appends, for the session's own stream, a DATA frame with the capsule that says that the session is to
    /// be closed soon. Everything may be sent as before.
    ///
    /// # Errors
    ///
    /// [`Refused::SessionNotOpen`].
    pub fn drain(&self, out: &mut Vec<u8>) -> Result<(), Refused> {
        Refused::in_session(sys::sending_drain(&self.0, out))
    }

    /// Appends, for the session's own stream, a DATA frame with the capsule that closes the session. End the
    /// QUIC stream after it, call [`Connection::abandon`], and reset the streams of the session. The peer's
    /// half of the session's stream is read to its end, and not stopped: the peer may see a stop before the
    /// capsule, and then the session is lost to it.
    ///
    /// # Errors
    ///
    /// [`Refused::SessionNotOpen`]; [`SendError::TooLarge`] for a reason of more than 1,024 bytes; and
    /// [`SendError::Memory`].
    pub fn close(&mut self, code: u32, reason: &str, out: &mut Vec<u8>) -> Result<(), Refused> {
        Refused::in_session(sys::sending_close(&mut self.0, code, reason.as_bytes(), out))
    }
}

/// The own control stream, which is never ended. It has no bytes.
///
/// ```
/// use vesgrauf::goaway::Goaway;
/// use vesgrauf::sending::{ControlSending, Refused, SendError};
/// use vesgrauf::{Connection, Endpoint, Limits};
///
/// let limits = Limits { max_section: 65_536, max_fields: 65_536, max_datagram: 1_500 };
/// let endpoint = Endpoint::server(limits);
/// let connection = Connection::new(endpoint).unwrap();
/// let (mut control, mut out) = (ControlSending::new(&connection), Vec::new());
/// control.settings(&endpoint.settings(16), &mut out)?; // the first bytes of the stream
/// assert_eq!(control.settings(&endpoint.settings(16), &mut out), Err(SendError::Unexpected.into()));
/// // the connection is to end: no more requests are to come, and the one on the stream 0 was the last
/// control.goaway(Goaway::LARGEST, &mut out)?;
/// control.goaway(4, &mut out)?;
/// assert_eq!(control.goaway(8, &mut out), Err(SendError::IdRises.into()));
/// assert_eq!(control.last_goaway(), Some(4));
/// # Ok::<(), Refused>(())
/// ```
#[derive(Clone, Debug, PartialEq, Eq)]
pub struct ControlSending {
    state: sys::Control,
    last: Option<u64>,
}

impl ControlSending {
    /// Creates the control stream of this end of a connection. Nothing is sent yet.
    pub fn new(connection: &Connection) -> Self {
        ControlSending { state: sys::control_new(&connection.state), last: None }
    }

    /// Returns the ID of the last GOAWAY. At a server requests on streams from it on are to be rejected: reset
    /// and stop them with [`Code::H3_REQUEST_REJECTED`](crate::error::Code::H3_REQUEST_REJECTED).
    pub fn last_goaway(&self) -> Option<u64> {
        self.last
    }

    /// Appends the type of the stream and SETTINGS, its first bytes: these settings in their order.
    ///
    /// # Errors
    ///
    /// [`SendError::Unexpected`] after the first time; [`SendError::TooLarge`] for more than the 4,096 bytes
    /// of settings that a [`Connection`] reads; [`SendError::InvalidSettings`]; and [`SendError::Memory`].
    pub fn settings(&mut self, settings: &Settings, out: &mut Vec<u8>) -> Result<(), Refused> {
        let told = sys::control_settings(&mut self.state, &settings.words(), out);
        Refused::result(told, Some(SendError::InvalidSettings.into()))
    }

    /// Appends GOAWAY (RFC 9114, section 5.2). At a server requests on streams from this ID on are not
    /// processed: [`Goaway::LARGEST`](crate::goaway::Goaway::LARGEST) first, and when no more of them can be under way, the ID after the last
    /// one that was processed. At a client pushes from this push ID on are not: 0. An ID may be sent again,
    /// and a lower one.
    ///
    /// # Errors
    ///
    /// [`SendError::Unexpected`] before SETTINGS; [`SendError::InvalidId`]; or [`SendError::IdRises`].
    pub fn goaway(&mut self, id: u64, out: &mut Vec<u8>) -> Result<(), Refused> {
        let told = sys::control_goaway(&mut self.state, id, out);
        Refused::result(told, Some(SendError::InvalidId.into()))?;
        self.last = Some(id);
        Ok(())
    }
}

#[cfg(test)]
mod tests {
    use super::*;
    use std::format;

    #[test]
    fn reasons_have_the_names_of_the_library() {
        let mut named = 0;
        for why in 0..300 {
            if let Some(name) = sys::send_reason_name(why) {
                let ours = match SendError::of(why) {
                    SendError::Malformed(rule) => format!("{rule:?}"),
                    error => format!("{error:?}"),
                };
                assert_eq!(ours, name);
                named += 1;
            }
        }
        assert_eq!(named, 26 + 9);
    }
}
