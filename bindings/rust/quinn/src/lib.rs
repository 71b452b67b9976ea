//! WebTransport over quinn, with the crate `vesgrauf`: an example that is small enough to copy.
//!
//! [`Http`] is a connection. A server takes its requests by [`Http::request`], and accepts those for
//! sessions by [`Request::accept`]; a client asks for a session by [`Http::connect`]. A [`Session`] has
//! streams, datagrams and an end.
//!
//! Each stream has a task that reads it ([`reader`]). What the streams of a connection have in common, the
//! `vesgrauf::Connection` and the state of each stream, is in one mutex, which no task holds while it waits.
//! A task reads from QUIC only after all that it had was consumed, so that QUIC's flow control bounds what
//! is kept.
#![deny(unsafe_code)]

mod connection;
pub mod reader;
mod request;
mod session;
pub mod tls;

pub use connection::Http;
pub use request::{Outcome, Request};
pub use session::{Closed, Receive, Send, Session, StreamError};

/// Returns a number of the library as one of quinn. Both are below 2^62.
pub(crate) fn varint(number: u64) -> quinn::VarInt {
    quinn::VarInt::from_u64(number).unwrap_or(quinn::VarInt::MAX)
}

/// Returns an error code as quinn has it.
pub(crate) fn code(code: vesgrauf::error::Code) -> quinn::VarInt {
    varint(code.number())
}

/// Returns the number of a stream.
pub(crate) fn number(id: quinn::StreamId) -> u64 {
    quinn::VarInt::from(id).into_inner()
}
