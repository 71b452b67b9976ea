//! The state of one stream.
use crate::event::Waits;
use crate::sys;
use alloc::vec::Vec;

/// The state of a stream of the peer: of a QUIC stream that the peer opened, or of the peer's half of one
/// that was opened here.
///
/// [`Connection::accept`](crate::Connection::accept) makes that of a stream that the peer opened,
/// [`Connection::open`](crate::Connection::open) that of the response to a request, and
/// [`of_session`](Stream::of_session) that of a bidirectional stream that was opened here for a session.
/// A unidirectional stream that was opened here has none.
#[derive(Clone, Debug, PartialEq, Eq)]
pub struct Stream {
    pub(crate) state: sys::Stream,
    /// The bytes of a capsule that is cut between two calls.
    pub(crate) held: Vec<u8>,
}

impl Stream {
    pub(crate) fn new(state: sys::Stream) -> Self {
        let held = Vec::new();
        Stream { state, held }
    }

    /// Creates the state of the peer's half of a bidirectional stream that was opened here for a session:
    /// it has no header.
    pub fn of_session(session: u64) -> Self {
        Stream::new(sys::stream_of_session(session))
    }

    /// Says that the CONNECT request of the stream is answered with this status, after the answer was
    /// written: with 2xx its session is open. A status from 100 to 199 changes nothing, nor does the
    /// answer to another request. Read the stream again afterwards, and
    /// [`join`](crate::Connection::join) those that wait for the session.
    pub fn answer(&mut self, status: u32) {
        sys::stream_answer(&mut self.state, status);
    }

    /// Returns what the stream waits for, or `None`.
    pub fn waits(&self) -> Option<Waits> {
        let (waits, session) = sys::stream_waits(&self.state);
        Waits::of(waits, session)
    }

    /// Returns the session to which the stream belongs, or for which it waits. The own stream of a session
    /// belongs to none.
    pub fn belongs(&self) -> Option<u64> {
        sys::stream_belongs(&self.state)
    }
}
