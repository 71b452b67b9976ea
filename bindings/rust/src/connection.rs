//! What the streams of a connection have in common, and what is next on each of them.
mod pushed;
mod resumption;

pub use self::pushed::{Pushed, PushedStream};
use crate::error::Code;
use crate::event::{event_of, unknown, Event, Purpose, Received};
use crate::fields::FieldList;
use crate::settings::{SettingId, Settings};
use crate::stream::Stream;
use crate::sys;
use alloc::vec::Vec;
use core::fmt;

/// A side of a connection.
#[derive(Clone, Copy, Debug, PartialEq, Eq, Hash)]
pub enum Side {
    /// The client.
    Client,
    /// The server.
    Server,
}

impl Side {
    pub(crate) fn number(self) -> u8 {
        match self {
            Side::Client => sys::WT_SIDE_CLIENT,
            Side::Server => sys::WT_SIDE_SERVER,
        }
    }
}

/// What is read at most. There are no defaults.
///
/// Besides these, a connection lets 16 streams wait for sessions that are to come, reads 64 interim
/// responses, 1,024 frames in a row without anything for the caller, and SETTINGS of 4,096 bytes.
#[derive(Clone, Copy, Debug, PartialEq, Eq)]
pub struct Limits {
    /// The largest encoded field section, in bytes: 65,536, say. A larger one is
    /// [`Event::TooLarge`].
    pub max_section: u32,
    /// The largest decoded field section: for each field the lengths of its name and its value, and 32. It
    /// is announced as SETTINGS_MAX_FIELD_SECTION_SIZE.
    pub max_fields: u64,
    /// The longest datagram of a capsule, at most 65,535. A longer one is dropped.
    pub max_datagram: u64,
}

/// The own endpoint: which side it is, what its SETTINGS enable, and its limits.
#[derive(Clone, Copy, Debug, PartialEq, Eq)]
pub struct Endpoint {
    /// Which side it is.
    pub side: Side,
    /// Whether its SETTINGS enable WebTransport. If not, 0x41 is an unknown frame type.
    pub webtransport: bool,
    /// Whether its SETTINGS enable HTTP datagrams. If not, those that come are dropped.
    pub datagrams: bool,
    /// Whether its SETTINGS allow extended CONNECT, as those of a server for sessions do (RFC 9220,
    /// section 3).
    pub extended: bool,
    /// What it reads at most.
    pub limits: Limits,
}

impl Endpoint {
    /// Creates a server with WebTransport, datagrams and extended CONNECT.
    pub const fn server(limits: Limits) -> Self {
        Endpoint { side: Side::Server, webtransport: true, datagrams: true, extended: true, limits }
    }

    /// Creates a client with WebTransport and datagrams.
    pub const fn client(limits: Limits) -> Self {
        Endpoint {
            side: Side::Client,
            webtransport: true,
            datagrams: true,
            extended: false,
            limits,
        }
    }

    /// Returns the SETTINGS that say so to the peer, which has to read them before it opens sessions:
    /// [`Settings::write_control_stream`] writes what the own control stream starts with. `sessions` is
    /// how many sessions the peer may open at once; Chromium opens none at a server that says 0.
    pub fn settings(&self, sessions: u64) -> Settings {
        let max_fields = self.limits.max_fields.min((1 << 62) - 1);
        let mut settings = Settings::new().set(SettingId::MAX_FIELD_SECTION_SIZE, max_fields);
        if self.extended {
            settings = settings.set(SettingId::ENABLE_CONNECT_PROTOCOL, 1);
        }
        if self.datagrams {
            settings = settings.set(SettingId::H3_DATAGRAM, 1);
        }
        if self.webtransport {
            settings = settings
                .set(SettingId::ENABLE_WEBTRANSPORT, 1)
                .set(SettingId::WEBTRANSPORT_MAX_SESSIONS, sessions);
        }
        settings
    }

    /// Returns the struct of the library.
    fn words(&self) -> sys::Endpoint {
        sys::Endpoint {
            side: self.side.number(),
            webtransport: self.webtransport.into(),
            datagrams: self.datagrams.into(),
            extended: self.extended.into(),
            max_section: self.limits.max_section,
            max_fields: self.limits.max_fields,
            max_datagram: self.limits.max_datagram,
            reserved: [0; 5],
        }
    }
}

/// What a request asks for, as far as the meaning of its response depends on it.
#[derive(Clone, Copy, Debug, PartialEq, Eq)]
pub enum Asked {
    /// A HEAD request, whose responses have no content.
    Head,
    /// A CONNECT request other than for a session, whose 2xx response opens a tunnel.
    Connect,
    /// A request for a session.
    Session,
    /// Any other request.
    Other,
}

impl Asked {
    /// Returns what a request with these fields asks for, by its `:method`: one that came as
    /// [`Event::Headers`]. One that came as [`Event::SessionRequested`] is [`Asked::Session`].
    pub fn of(fields: &FieldList) -> Self {
        match fields.first(b":method") {
            Some(b"HEAD") => Asked::Head,
            Some(b"CONNECT") => Asked::Connect,
            _ => Asked::Other,
        }
    }

    pub(crate) fn number(self) -> u32 {
        match self {
            Asked::Other => sys::WT_ASKED_OTHER,
            Asked::Head => sys::WT_ASKED_HEAD,
            Asked::Connect => sys::WT_ASKED_CONNECT,
            Asked::Session => sys::WT_ASKED_SESSION,
        }
    }
}

/// What is known of the session of a stream or a datagram.
#[derive(Clone, Copy, Debug, PartialEq, Eq)]
pub enum Known {
    /// Its request has not come, or has no answer yet.
    Coming,
    /// It is open.
    Open,
    /// It is over.
    Over,
    /// Its request was refused, or ended before its HEADERS.
    Refused,
    /// Its request asked for no session.
    Other,
    /// No session can have this ID.
    Impossible,
}

/// What is to be done with a datagram.
#[derive(Clone, Copy, Debug, PartialEq, Eq)]
pub enum DatagramFor {
    /// It is the application's.
    Deliver,
    /// Its session is to come. It may be kept for about a round trip, and otherwise is to be dropped.
    /// Limit how many are kept.
    Early,
    /// It is to be dropped.
    Discard,
    /// It is to be dropped, and the stream with the session's ID is to be reset and stopped with
    /// [`Code::H3_DATAGRAM_ERROR`].
    EndStream,
}

impl Known {
    /// Returns what is to be done with a datagram, by what is known of its session.
    pub fn datagram_for(self) -> DatagramFor {
        match sys::datagram_use(self.number()) {
            sys::WT_DATAGRAM_DELIVER => DatagramFor::Deliver,
            sys::WT_DATAGRAM_EARLY => DatagramFor::Early,
            sys::WT_DATAGRAM_DROP => DatagramFor::Discard,
            sys::WT_DATAGRAM_END_STREAM => DatagramFor::EndStream,
            number => panic!("libwtransport returned {number}"),
        }
    }

    fn number(self) -> u32 {
        match self {
            Known::Coming => sys::WT_KNOWN_COMING,
            Known::Open => sys::WT_KNOWN_OPEN,
            Known::Over => sys::WT_KNOWN_OVER,
            Known::Refused => sys::WT_KNOWN_REFUSED,
            Known::Other => sys::WT_KNOWN_OTHER,
            Known::Impossible => sys::WT_KNOWN_IMPOSSIBLE,
        }
    }

    fn of(number: u32) -> Self {
        match number {
            sys::WT_KNOWN_COMING => Known::Coming,
            sys::WT_KNOWN_OPEN => Known::Open,
            sys::WT_KNOWN_OVER => Known::Over,
            sys::WT_KNOWN_REFUSED => Known::Refused,
            sys::WT_KNOWN_OTHER => Known::Other,
            sys::WT_KNOWN_IMPOSSIBLE => Known::Impossible,
            number => unknown("state of a session", number),
        }
    }
}

/// An endpoint was refused: a limit or a remembered setting is out of its range, or the library has another
/// version of its states (`WT_ABI`).
#[derive(Clone, Copy, Debug, PartialEq, Eq)]
pub struct InvalidEndpoint;

impl fmt::Display for InvalidEndpoint {
    fn fmt(&self, f: &mut fmt::Formatter<'_>) -> fmt::Result {
        f.write_str(
            "a limit or a setting is out of its range, or libwtransport is of another version",
        )
    }
}

#[cfg(feature = "std")]
impl std::error::Error for InvalidEndpoint {}

/// The receiving half of a connection: what is next on each stream of the peer, with messages and
/// sessions. It has no socket and no table of streams: the caller keeps a [`Stream`] for each stream, and
/// the bytes that were not consumed. What is sent is a [`Sending`](crate::Sending)'s.
///
/// # Panics
///
/// A call panics only if the library breaks what its header says.
#[derive(Clone, Debug)]
pub struct Connection {
    pub(crate) state: sys::Connection,
    /// Memory for the fields, the texts, reasons and datagrams of one call.
    fields: Vec<sys::Field>,
    out: Vec<u8>,
}

impl Connection {
    /// Creates a connection.
    ///
    /// # Errors
    ///
    /// [`InvalidEndpoint`].
    pub fn new(endpoint: Endpoint) -> Result<Self, InvalidEndpoint> {
        Connection::of(sys::connection_new(&endpoint.words()))
    }

    fn of(state: Option<sys::Connection>) -> Result<Self, InvalidEndpoint> {
        Ok(Connection { state: state.ok_or(InvalidEndpoint)?, fields: Vec::new(), out: Vec::new() })
    }

    /// Creates the state of a stream that the peer opened, by its ID (RFC 9000, section 2.1).
    pub fn accept(&mut self, id: u64) -> Stream {
        Stream::new(sys::stream_accept(&mut self.state, id))
    }

    /// Creates the state of the response to an own request, by what the request asks for.
    pub fn open(&self, asked: Asked) -> Stream {
        Stream::new(sys::stream_of_request(&self.state, asked.number()))
    }

    /// Returns whether an error ended the connection. A stop of the own control stream would be one, but none
    /// comes after another: a copy of the state is asked.
    pub(crate) fn is_over(&self) -> bool {
        let mut copy = self.state;
        sys::stopped(&mut copy, sys::WT_PURPOSE_CONTROL).0 == sys::WT_OK
    }

    /// Returns whether the settings of both ends allow sessions, which they do not before the SETTINGS of
    /// the peer came: both enable HTTP datagrams and WebTransport, and the server extended CONNECT. A client
    /// asks before it sends a request for one.
    pub fn allows_sessions(&self) -> bool {
        sys::connection_allows_sessions(&self.state)
    }

    /// Returns, at a client, whether a request with this ID is not processed by the server, as its GOAWAY
    /// says. It may be sent again on another connection (RFC 9114, section 5.2).
    pub fn is_unprocessed(&self, id: u64) -> bool {
        sys::connection_unprocessed(&self.state, id)
    }

    /// Returns what is next in the bytes of a stream that follow those consumed before. `fin`: the stream
    /// ends right after `bytes`. Call it until [`Event::More`] or [`Event::Waits`].
    ///
    /// After `More` and [`NoMemory`](Event::NoMemory) the bytes that were not consumed are to be passed
    /// again, after `More` with more bytes after them. After `Waits` they are to be passed again when the
    /// wait is over. With an error all bytes are consumed. After an error of the connection every call
    /// consumes all bytes of every stream and returns `More`.
    ///
    /// How many bytes wait is not bounded: say of a stream of which more wait than you keep that it
    /// [overflows](Self::overflow).
    ///
    /// ```
    /// use vesgrauf::{Connection, Endpoint, Event, Limits, Purpose};
    ///
    /// let limits = Limits { max_section: 65_536, max_fields: 65_536, max_datagram: 1_500 };
    /// let mut connection = Connection::new(Endpoint::server(limits)).unwrap();
    /// // the control stream of a client: type 0, and a SETTINGS frame
    /// let mut stream = connection.accept(2);
    /// let mut bytes = &b"\x00\x04\x02\x33\x01"[..];
    /// let mut events = 0;
    /// loop {
    ///     let received = connection.receive(&mut stream, bytes, false);
    ///     bytes = &bytes[received.consumed..];
    ///     match received.event {
    ///         Event::Opened(purpose) => assert_eq!(purpose, Purpose::Control),
    ///         Event::Settings(payload) => assert_eq!(payload, b"\x33\x01"),
    ///         Event::More => break,
    ///         event => panic!("{event:?}"),
    ///     }
    ///     events += 1;
    /// }
    /// assert_eq!((events, bytes), (2, &b""[..]));
    /// ```
    pub fn receive<'a>(&mut self, stream: &mut Stream, bytes: &'a [u8], fin: bool) -> Received<'a> {
        loop {
            let room =
                sys::Room { held: &mut stream.held, fields: &mut self.fields, out: &mut self.out };
            match sys::receive(&mut self.state, &mut stream.state, bytes, fin, room) {
                (sys::WT_OK, event) => {
                    return Received {
                        consumed: event.consumed,
                        event: event_of(&event, bytes, &self.fields, &self.out),
                    }
                }
                (sys::WT_BUFFER_TOO_SMALL, event) => self.make_room(stream, &event),
                (sys::WT_MEMORY, _) => return Received { consumed: 0, event: Event::NoMemory },
                (answer, _) => panic!("libwtransport returned {answer}"),
            }
        }
    }

    /// Makes room for what comes with an event, which is within the limits.
    fn make_room(&mut self, stream: &mut Stream, event: &sys::Event) {
        fn grow<T: Clone + Default>(room: &mut Vec<T>, needed: usize) -> bool {
            let grows = room.len() < needed;
            if grows {
                room.resize(needed.max(2 * room.len()), T::default());
            }
            grows
        }
        let fields = grow(&mut self.fields, event.fields);
        let out = grow(&mut self.out, event.used);
        let held = grow(&mut stream.held, event.held);
        assert!(fields || out || held, "libwtransport needs no more room");
    }

    /// Returns what is known of a session. `its` is the stream with that ID, if the caller has it. A client
    /// keeps the stream of each session that it asked for as long as the connection lives.
    pub fn known(&self, session: u64, its: Option<&Stream>) -> Known {
        let its = its.map(|stream| core::slice::from_ref(&stream.state));
        Known::of(sys::session_known(&self.state, session, its.unwrap_or(&[])))
    }

    /// Says what is known of the session of a stream: after [`Event::Joins`], and when it changes for a
    /// stream that waits for it.
    ///
    /// Returns [`Event::Joined`], and the bytes of the stream follow; [`Event::Waits`], and they are to be
    /// passed again after the next call; [`Event::StreamError`] or [`Event::ConnectionError`]; or
    /// [`Event::More`] if nothing changes.
    pub fn join(&mut self, stream: &mut Stream, known: Known) -> Event<'static> {
        event(sys::stream_join(&mut self.state, &mut stream.state, known.number()))
    }

    /// Says that the peer reset a stream: what was not read of it is lost.
    ///
    /// Returns [`Event::SessionLost`], [`Event::Reset`], [`Event::ConnectionError`], or [`Event::More`] if
    /// the stream was over before.
    pub fn reset(&mut self, stream: &mut Stream) -> Event<'static> {
        event(sys::stream_reset(&mut self.state, &mut stream.state))
    }

    /// Says that the peer asked to stop the own half of a bidirectional stream (STOP_SENDING): reset that
    /// half. Of a unidirectional stream see [`stopped`](Self::stopped).
    ///
    /// Returns [`Event::SessionLost`] if an open session ends by that, and otherwise [`Event::More`].
    pub fn stop(&mut self, stream: &mut Stream) -> Event<'static> {
        event(sys::stream_stop(&mut self.state, &mut stream.state))
    }

    /// Says that a stream is read no further, for a reason of the application. So a session is closed,
    /// after its capsule and the end were written.
    ///
    /// Returns [`Event::SessionLost`] if an open session ends by that, and otherwise [`Event::More`]. Later
    /// bytes of the stream are consumed. The control stream and those of QPACK stay as they are.
    pub fn abandon(&mut self, stream: &mut Stream) -> Event<'static> {
        event(sys::stream_abandon(&mut self.state, &mut stream.state))
    }

    /// Says that more bytes of a stream wait than the caller keeps: it is over.
    ///
    /// Returns [`Event::StreamError`] if it waits for its session, and otherwise
    /// [`Event::ConnectionError`]; or [`Event::More`] if it was over.
    pub fn overflow(&mut self, stream: &mut Stream) -> Event<'static> {
        event(sys::stream_overflow(&mut self.state, &mut stream.state))
    }

    /// Says that the peer asked to stop a unidirectional stream that was opened here: reset it. `own` is
    /// what it is for: [`Purpose::Control`], [`Purpose::Encoder`], [`Purpose::Decoder`] or
    /// [`Purpose::Session`].
    ///
    /// Returns the error code, if that is an error of the connection.
    ///
    /// # Panics
    ///
    /// If the purpose is another one.
    pub fn stopped(&mut self, own: Purpose) -> Option<Code> {
        match sys::stopped(&mut self.state, own.number()) {
            (sys::WT_OK, _) => None,
            (sys::WT_ERROR, code) => Some(Code::new(code)),
            _ => panic!("a stream of this purpose is not opened here: {own:?}"),
        }
    }

    /// Returns the session of a QUIC datagram and its payload, or `None` if it is to be dropped. What is
    /// [known](Self::known) of the session says what is to be done with it
    /// ([`Known::datagram_for`]).
    ///
    /// # Errors
    ///
    /// An error of the connection, which is to be closed with the code.
    pub fn datagram<'a>(&mut self, bytes: &'a [u8]) -> Result<Option<(u64, &'a [u8])>, Code> {
        let event = sys::datagram_receive(&mut self.state, bytes);
        match event.kind {
            sys::WT_EVENT_DATAGRAM => {
                let payload = &bytes[event.offset..event.offset + event.length];
                Ok(Some((event.number, payload)))
            }
            sys::WT_EVENT_SKIPPED | sys::WT_EVENT_MORE => Ok(None),
            sys::WT_EVENT_CONNECTION_ERROR => Err(Code::new(event.number)),
            kind => unknown("event", kind),
        }
    }
}

/// Returns an event that has no bytes.
fn event(event: sys::Event) -> Event<'static> {
    event_of(&event, &[], &[], &[])
}
