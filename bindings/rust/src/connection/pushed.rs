//! Streams whose bytes come once, in chunks.
use super::Connection;
use crate::event::{event_of, Event};
use crate::stream::Stream;
use crate::sys;
use alloc::vec::Vec;

/// A stream whose bytes come once, in chunks: its state, and the bytes that were not consumed, which are held
/// until more come. [`Connection::receive_pushed`] reads it.
#[derive(Clone, Debug)]
pub struct PushedStream {
    /// The state of the stream, for the other calls of a [`Connection`].
    pub stream: Stream,
    hold: sys::Hold,
    room: Vec<u8>,
    most: usize,
}

impl PushedStream {
    /// Holds the bytes of a stream from its start on: at most `most`.
    ///
    /// 16 more than [`Limits::max_section`](crate::Limits::max_section), and at least 4,112, suffice for each
    /// stream that does not wait. One that waits for its session or for an answer needs as many as you keep
    /// of one. Memory is taken as it is needed.
    pub fn new(stream: Stream, most: usize) -> Self {
        PushedStream { stream, hold: sys::Hold::default(), room: Vec::new(), most }
    }

    /// Returns how many bytes are held. They were not consumed, and are not yet to be credited to the peer.
    pub fn held(&self) -> usize {
        self.hold.end - self.hold.start
    }

    /// Drops the bytes that are held, and returns how many they are. Call it after the stream was
    /// [reset](Connection::reset), [abandoned](Connection::abandon) or [overflowed](Connection::overflow): no
    /// event consumes them, so that they are to be credited to the peer now.
    pub fn discard(&mut self) -> usize {
        let held = self.held();
        self.hold = sys::Hold::default();
        self.room = Vec::new();
        held
    }

    /// Makes more room for what is held and `more` bytes. Returns whether there is some now.
    fn grow(&mut self, more: usize) -> bool {
        let (old, needed) = (self.room.len(), self.held().saturating_add(more));
        let size = needed.max(2 * old).min(self.most);
        if size > old {
            self.room.resize(size, 0);
        }
        size > old
    }
}

/// The next event of a stream whose bytes come in chunks.
#[derive(Clone, Debug, PartialEq, Eq)]
pub struct Pushed<'a> {
    /// How many bytes of the chunk were taken. The next call is to be made with the others.
    pub taken: usize,
    /// How many bytes are consumed with the event, of the chunk or of those held before: the credit for
    /// QUIC's flow control.
    pub consumed: usize,
    /// The event.
    pub event: Event<'a>,
}

impl Connection {
    /// Returns what is next on a stream of a QUIC library that gives each byte once, in chunks: in the bytes
    /// that are held, and those of the chunk. `fin`: the stream ends right after `chunk`, which need not be
    /// said again with the bytes that were not taken.
    ///
    /// Call it until [`Event::More`] or [`Event::Waits`], each time with the bytes of the chunk that were not
    /// taken. If some are left then, the stream would hold more than it may: say that it
    /// [overflows](Self::overflow). When a wait is over, call it with an empty chunk. With
    /// [`NoMemory`](Event::NoMemory) nothing is taken: repeat the call, with the same `fin`.
    ///
    /// When the stream is [reset](Self::reset), [abandoned](Self::abandon) or overflows, no event consumes
    /// what is held and what is left of the chunk: credit the peer with these bytes
    /// ([`PushedStream::discard`]).
    ///
    /// ```
    /// use vesgrauf::{Connection, Endpoint, Event, Limits, PushedStream};
    ///
    /// let limits = Limits { max_section: 65_536, max_fields: 65_536, max_datagram: 1_500 };
    /// let mut connection = Connection::new(Endpoint::server(limits)).unwrap();
    /// let mut stream = PushedStream::new(connection.accept(2), 65_552);
    /// let mut settings = false;
    /// // the control stream of a client, in three chunks
    /// for mut chunk in [&b"\x00\x04"[..], b"\x02\x33", b"\x01"] {
    ///     loop {
    ///         let pushed = connection.receive_pushed(&mut stream, chunk, false);
    ///         chunk = &chunk[pushed.taken..];
    ///         match pushed.event {
    ///             Event::More | Event::Waits(_) => break,
    ///             Event::Settings(payload) => settings = payload == b"\x33\x01",
    ///             _ => {}
    ///         }
    ///     }
    ///     assert!(chunk.is_empty()); // otherwise: connection.overflow(&mut stream.stream)
    /// }
    /// assert!(settings && stream.held() == 0);
    /// ```
    pub fn receive_pushed<'a>(
        &mut self,
        pushed: &'a mut PushedStream,
        chunk: &'a [u8],
        fin: bool,
    ) -> Pushed<'a> {
        let (mut taken, mut consumed) = (0, 0);
        loop {
            let rest = &chunk[taken..];
            let event = match self.push(pushed, rest, fin) {
                Some(event) => event,
                None => return Pushed { taken, consumed, event: Event::NoMemory },
            };
            taken += pushed.hold.taken;
            consumed += event.consumed;
            let left = chunk.len() - taken;
            let is_last = matches!(event.kind, sys::WT_EVENT_MORE | sys::WT_EVENT_WAITS);
            if is_last && left > 0 && pushed.grow(left) {
                continue;
            }
            let bytes = if pushed.hold.in_array == 1 { &pushed.room } else { rest };
            let event = event_of(&event, bytes, &self.fields, &self.out);
            return Pushed { taken, consumed, event };
        }
    }

    /// Returns the event of one call, or `None` if allocation failed.
    fn push(&mut self, pushed: &mut PushedStream, chunk: &[u8], fin: bool) -> Option<sys::Event> {
        loop {
            let PushedStream { stream, hold, room, .. } = pushed;
            let to =
                sys::Room { held: &mut stream.held, fields: &mut self.fields, out: &mut self.out };
            let state = (&mut self.state, &mut stream.state);
            match sys::receive_pushed(state.0, state.1, (hold, room), chunk, fin, to) {
                (sys::WT_OK, event) => return Some(event),
                (sys::WT_BUFFER_TOO_SMALL, event) => self.make_room(stream, &event),
                (sys::WT_MEMORY, _) => return None,
                (answer, _) => panic!("libwtransport returned {answer}"),
            }
        }
    }
}
