//! WebTransport over HTTP/3 without IO, from Vesgrauf: safe Rust over its C library, `libwtransport`,
//! whose calls are proved to do what their definitions say.
//!
//! This crate is Vesgrauf's. It is neither the crate `wtransport`, which is an endpoint with sockets, nor
//! `wtransport-proto`, which is its protocol core and has the same purpose as this crate: the page MIGRATION.md
//! beside this crate says what corresponds to what. It has no dependencies, no socket, no clock and no runtime:
//! bytes of streams and datagrams go in, events come out, and what is sent is written as bytes. A whole server
//! and a client over quinn are in the folder `quinn` beside this crate.
//!
//! # What is where
//!
//! | For | Use |
//! |---|---|
//! | a whole connection | [`Connection`], [`Stream`], [`Event`] |
//! | what is read at most | [`Limits`], in an [`Endpoint`] |
//! | a QUIC library that gives each byte once | [`PushedStream`], [`Connection::receive_pushed`] |
//! | the settings of the peer, 0-RTT | [`settings::PeerSettings`], [`Connection::resuming`] |
//! | what is sent | [`Sending`] for a message and its session, [`ControlSending`]; what they do not send is [`Refused`] |
//! | clients that reset their requests | [`budget::RequestBudget`] |
//! | fields of messages | [`fields::FieldList`], [`session::SessionRequest`], [`session::SessionResponse`] |
//! | error codes, names, those of applications | [`error::Code`], [`error::application_codes`] |
//! | one stream, below a connection of your own | [`frame`], [`stream_header`], [`datagram`], [`capsule`], [`goaway`], [`settings::Settings`], [`varint`] |
//!
//! # A server
//!
//! QUIC is configured with the ALPN protocol [`WEBTRANSPORT_ALPN`], with datagrams, and so that the peer may
//! open at least three unidirectional streams beside those of its sessions. For each QUIC connection a server
//! keeps a [`Connection`] and a [`ControlSending`], for each stream a [`Stream`] with the bytes that were not
//! consumed, and for each request a [`Sending`].
//!
//! 1. At the start it opens a unidirectional stream and sends what [`ControlSending::settings`] appends. It
//!    stays open.
//! 2. For each stream of the peer: [`Connection::accept`], and [`Connection::receive`] with its bytes.
//! 3. It does what the comment of each [`Event`] says. It answers a request by a [`Sending`]: the bytes of
//!    [`Sending::headers`], and after those of a CONNECT [`Stream::answer`]. The [`Sending`] of a session has
//!    the first bytes of its streams and datagrams.
//! 4. It reads streams that [wait](Event::Waits) again: for a session after that was answered or ended, for
//!    SETTINGS after they came, for an answer after [`Stream::answer`]. One that waits for its session is given
//!    to [`Connection::join`] first, with what is [known](Connection::known) now.
//! 5. A reset of a stream, a request to stop it and a datagram go to [`Connection::reset`],
//!    [`Connection::stop`] (or [`Connection::stopped`]) and [`Connection::datagram`].
//! 6. To close a session it sends what [`Sending::close`] appends on the session's stream, ends its half of the
//!    stream, and calls [`Connection::abandon`]. It reads the peer's half on to its end: if that is stopped, the
//!    peer may see the stop before the close. In each case the streams of a session that is over are reset and
//!    stopped, and its [`Sending`] is dropped. The QUIC connection is closed only when both halves of the
//!    session's stream have ended, or after a limit of time: the close may otherwise not be sent.
//! 7. After the end of a stream its [`Stream`] may be dropped, that of a session too: a server's
//!    [`Connection`] knows which requests have begun. A client keeps those of its sessions. One that is dropped
//!    before its end is [abandoned](Connection::abandon) first.
//! 8. It counts requests that are answered, and those that are reset before, in a
//!    [`RequestBudget`](budget::RequestBudget).
//! 9. To end the connection it sends what [`ControlSending::goaway`] appends, answers the requests that it
//!    processes, and closes the connection with [`H3_NO_ERROR`](error::Code::H3_NO_ERROR).
//!
//! # A client
//!
//! Its [`Connection`] is that of [`Endpoint::client`]. Steps 1, 2, 4 and 5 of a server are its own too, and it does
//! what the comment of each [`Event`] says. Then:
//!
//! 1. After [`Event::Settings`], if [`Connection::allows_sessions`], it opens a bidirectional stream for each
//!    session, whose ID is that of the stream: what it sends on it is a [`Sending::request`], with the fields of a
//!    [`SessionRequest`](session::SessionRequest), and what it receives on it is read with a [`Stream`] of
//!    [`Connection::open`].
//! 2. [`Event::SessionReady`] on that stream opens the session: it calls [`Sending::connected`]. After
//!    [`Event::Rejected`] no session follows, and it ends its half of the stream.
//! 3. A stream of the session begins with what [`Sending::bidirectional`] or [`Sending::unidirectional`] appends,
//!    and the application's bytes follow. What it receives on a bidirectional one is read with a [`Stream`] of
//!    [`Stream::of_session`], and comes as [`Event::StreamData`].
//! 4. It closes the session as a server does, in step 6.
//!
//! # Both
//!
//! Only the bytes that were consumed are to be credited to the peer, so that QUIC's flow control bounds what
//! waits: with a library such as quinn, which credits what is read, a stream is read no further while bytes of
//! it wait.
//!
//! [`Connection::receive`] wants the bytes that were not consumed again, with more after them. If QUIC gives each
//! byte once, [`Connection::receive_pushed`] reads the chunks, and a [`PushedStream`] holds what is left.
//!
//! What quinn calls these things:
//!
//! | quinn 0.9 | Here |
//! |---|---|
//! | `Connection::accept_bi`, `accept_uni`; `VarInt::from(stream.id()).into_inner()` is the ID | [`Connection::accept`] |
//! | `RecvStream::read_chunk`: bytes, or `None` at the end | [`Connection::receive`], with `fin` at the end |
//! | the error `ReadError::Reset` | [`Connection::reset`] |
//! | `SendStream::stopped`, or the error `WriteError::Stopped` | [`Connection::stop`], [`Connection::stopped`] |
//! | `Connection::read_datagram` | [`Connection::datagram`] |
//! | `SendStream::reset`, `RecvStream::stop`, `Connection::close` with `VarInt::from_u64(code.number())` | what an error asks for |
//!
//! A task for each stream reads it in a loop. The tasks of a connection share the [`Connection`], the table of its
//! [`Stream`]s and that of the [`Sending`]s of its open sessions in a mutex, which none of them holds while it waits,
//! and a `tokio::sync::watch` that wakes all of them when SETTINGS came, and when a session is answered or over. A task
//! whose stream waits then reads it again; one whose session is over ([`Stream::belongs`]) resets and stops its
//! stream, and abandons it. The loop ends at [`Event::More`] after the end of the stream.
//!
//! quinn allows datagrams, and 100 streams of each kind, unless its `TransportConfig` says otherwise. The ALPN protocol
//! is set in rustls, as `alpn_protocols`. Two things of quinn 0.9 surprise: `SendStream::finish` panics if it is called
//! again after it ended, and a `RecvStream` that is dropped before its end stops its stream.
//!
//! Here a client of this crate asks such a server for a session, without a network in between:
//!
//! ```
//! use vesgrauf::session::{SessionRequest, SessionResponse};
//! use vesgrauf::{Asked, Connection, ControlSending, Endpoint, Event, Limits, Refused, Sending, Stream};
//!
//! const LIMITS: Limits = Limits { max_section: 65_536, max_fields: 65_536, max_datagram: 1_500 };
//!
//! /// Reads all that is next on a stream, and returns the event before the last one.
//! fn last<'a>(connection: &mut Connection, stream: &mut Stream, mut bytes: &'a [u8]) -> Event<'a> {
//!     let mut last = Event::More;
//!     loop {
//!         let received = connection.receive(stream, bytes, false);
//!         bytes = &bytes[received.consumed..];
//!         match received.event {
//!             Event::More | Event::Waits(_) => return last,
//!             Event::ConnectionError(code) => panic!("close the connection: {code}"),
//!             event => last = event,
//!         }
//!     }
//! }
//!
//! # fn main() -> Result<(), Box<dyn std::error::Error>> {
//! let (server_end, client_end) = (Endpoint::server(LIMITS), Endpoint::client(LIMITS));
//! let (mut server, mut client) = (Connection::new(server_end)?, Connection::new(client_end)?);
//!
//! // each sends its SETTINGS on its first unidirectional stream: the client on 2, the server on 3
//! let (mut bytes, mut control) = (Vec::new(), server.accept(2));
//! ControlSending::new(&client).settings(&client_end.settings(0), &mut bytes)?;
//! assert!(matches!(last(&mut server, &mut control, &bytes), Event::Settings(_)));
//! let (mut bytes, mut control) = (Vec::new(), client.accept(3));
//! ControlSending::new(&server).settings(&server_end.settings(16), &mut bytes)?;
//! assert!(matches!(last(&mut client, &mut control, &bytes), Event::Settings(_)));
//! assert!(client.allows_sessions());
//!
//! // the client asks on its stream 0, and may not send on the session before the answer
//! let (mut bytes, mut asking) = (Vec::new(), client.open(Asked::Session));
//! let mut request = Sending::request(&client, 0)?;
//! request.headers(&SessionRequest::new("https://localhost/chat").fields()?, &mut bytes)?;
//! assert_eq!(request.bidirectional(&mut Vec::new()), Err(Refused::SessionNotOpen));
//! let mut asked = server.accept(0);
//! match last(&mut server, &mut asked, &bytes) {
//!     Event::SessionRequested(fields) => assert_eq!(fields.first(b":path"), Some(&b"/chat"[..])),
//!     event => panic!("{event:?}"),
//! }
//!
//! // the server accepts
//! let (mut bytes, mut response) = (Vec::new(), Sending::response(&server, 0, Asked::Session)?);
//! response.headers(&SessionResponse::ok().fields(), &mut bytes)?;
//! asked.answer(200);
//! assert!(matches!(last(&mut client, &mut asking, &bytes), Event::SessionReady(200, _)));
//! request.connected()?;
//!
//! // a bidirectional stream of the session: 4 at the client
//! let mut bytes = Vec::new();
//! request.bidirectional(&mut bytes)?;
//! bytes.extend_from_slice(b"hello");
//! let mut stream = server.accept(4);
//! let received = server.receive(&mut stream, &bytes, true);
//! assert_eq!(received.event, Event::Joins(0));
//! let known = server.known(0, Some(&asked));
//! assert_eq!(server.join(&mut stream, known), Event::Joined(0));
//! let received = server.receive(&mut stream, &bytes[received.consumed..], true);
//! assert_eq!(received.event, Event::StreamData(b"hello"));
//!
//! // the server closes the session
//! let mut bytes = Vec::new();
//! response.close(7, "bye", &mut bytes)?;
//! server.abandon(&mut asked);
//! match last(&mut client, &mut asking, &bytes) {
//!     Event::SessionClosed(close) => assert_eq!((close.code(), close.reason()), (7, "bye")),
//!     event => panic!("{event:?}"),
//! }
//! # Ok(())
//! # }
//! ```
//!
//! # Building
//!
//! The build script finds the library by `pkg-config`, or in the folder that the environment variable
//! `WTRANSPORT_LIB_DIR` names. `WTRANSPORT_STATIC=1` links the archive `libwtransport.a`. With
//! `WTRANSPORT_NO_LINK=1`, `cargo doc` and `cargo check` need no library. The library needs x86-64 with SSE4.2
//! and POPCNT.
//!
//! Without the feature `std`, which is on by default, the crate needs `alloc` alone: the errors then do not
//! implement [`std::error::Error`].
//!
//! # Memory and safety
//!
//! All unsafe code is in `src/sys.rs`. A [`Connection`] has no table and no queue. It keeps memory
//! for one field section, a datagram and a reason, within its [`Limits`], and a [`Stream`] that of a capsule
//! that is cut: at most 1,028 bytes, or [`Limits::max_datagram`] if that is more. How many bytes of a stream
//! wait is the caller's own limit ([`Connection::overflow`], [`PushedStream::new`]).
//!
//! What is proved is proved of the library, in its repository. Of this crate nothing is proved.
#![cfg_attr(not(feature = "std"), no_std)]
#![deny(unsafe_code)]
#![warn(missing_docs)]

extern crate alloc;

/// The code of the page is tested.
#[cfg(doctest)]
#[doc = include_str!("../MIGRATION.md")]
mod migration {}

pub mod budget;
pub mod capsule;
pub mod connection;
pub mod datagram;
pub mod error;
pub mod event;
pub mod fields;
pub mod frame;
pub mod goaway;
pub mod malformed;
pub mod sending;
pub mod session;
pub mod settings;
pub mod stream;
pub mod stream_header;
#[allow(missing_docs)]
mod sys;
pub mod varint;

pub use connection::{
    Asked, Connection, DatagramFor, Endpoint, Known, Limits, Pushed, PushedStream, Side,
};
pub use event::{Close, Event, HeadersKind, Purpose, Received, Waits};
pub use sending::{ControlSending, Refused, Sending};
pub use stream::Stream;

/// The ALPN protocol ID that a QUIC connection for WebTransport negotiates (RFC 9114, section 3.1).
pub const WEBTRANSPORT_ALPN: &[u8] = b"h3";

/// Returns the version of the library that is linked, a byte for each part: 0x000800 is 0.8.0.
pub fn library_version() -> u32 {
    sys::version()
}
