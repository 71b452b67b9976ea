//! Reads a stream of the peer, event by event.
use crate::code;
use crate::connection::{Shared, State};
use bytes::{Buf, Bytes, BytesMut};
use quinn::{ReadError, RecvStream};
use std::sync::Arc;
use vesgrauf::error::Code;
use vesgrauf::fields::FieldList;
use vesgrauf::{Asked, Close, Event, HeadersKind, Waits};

/// How many bytes are read from QUIC at once.
const CHUNK: usize = 64 * 1024;

/// What a stream gives, for the one who owns it.
#[derive(Debug)]
pub enum Item {
    /// At a server, a request, by what it asks for.
    Request(Asked, FieldList),
    /// At a client, the response that accepts a session.
    SessionReady(u32),
    /// At a client, one that does not.
    Rejected(u32),
    /// The stream belongs to this session, which is open.
    Joined(u64),
    /// A piece of content, or of a stream of a session.
    Data(Bytes),
    /// A datagram that came in a capsule.
    Datagram(Bytes),
    /// The peer closed the session of this stream.
    SessionClosed(Close),
    /// The session of this stream ended otherwise.
    SessionLost,
    /// The fields of a request are larger than the limits.
    TooLarge,
    /// An error of the stream: its own half is to be reset with the code. This one is stopped.
    Failed(Code),
    /// The peer reset the stream with this code.
    Reset(Code),
    /// The stream, or the connection, is over.
    End,
}

/// What is next, for the reader itself.
enum Step {
    Item(Item),
    /// Something else came.
    Again,
    /// The bytes that are left wait.
    Wait,
    /// More bytes are needed.
    More,
}

/// A stream of the peer that is read. Its state is in the connection.
pub struct Reader {
    pub(crate) shared: Arc<Shared>,
    pub(crate) id: u64,
    quic: RecvStream,
    /// What was not consumed.
    bytes: Bytes,
    fin: bool,
    /// Whether its state stays in the connection: that of a session at a client.
    stays: bool,
}

impl Reader {
    pub(crate) fn new(shared: &Arc<Shared>, id: u64, quic: RecvStream, stays: bool) -> Self {
        let shared = shared.clone();
        Reader { shared, id, quic, bytes: Bytes::new(), fin: false, stays }
    }

    /// Returns what is next. It may be cancelled, and loses nothing.
    pub async fn next(&mut self) -> Item {
        let shared = self.shared.clone();
        loop {
            // before the state is read, so that no change after that is missed
            let (changed, doomed) = (shared.changed.notified(), shared.dooms.notified());
            match self.step() {
                Step::Item(item) => return item,
                Step::Again => {}
                Step::More if self.fin => return Item::End,
                Step::More => tokio::select! {
                    item = self.fill() => if let Some(item) = item { return item },
                    _ = doomed => {}
                },
                Step::Wait => tokio::select! {
                    _ = changed => {}
                    _ = shared.quic.closed() => return Item::End,
                },
            }
        }
    }

    /// Asks the peer to send no more.
    pub fn stop(&mut self, with: Code) {
        let _ = self.quic.stop(code(with));
    }

    /// Reads and drops what still comes.
    pub(crate) async fn drain(&mut self) {
        while let Ok(Some(_)) = self.quic.read_chunk(CHUNK, true).await {}
    }

    /// Reads more bytes from QUIC. Returns what ends the stream.
    async fn fill(&mut self) -> Option<Item> {
        match self.quic.read_chunk(CHUNK, true).await {
            Ok(Some(chunk)) if self.bytes.is_empty() => self.bytes = chunk.bytes,
            Ok(Some(chunk)) => {
                let mut both = BytesMut::from(&self.bytes[..]);
                both.extend_from_slice(&chunk.bytes);
                self.bytes = both.freeze();
            }
            Ok(None) => self.fin = true,
            Err(ReadError::Reset(code)) => return Some(self.reset(Code::new(code.into_inner()))),
            Err(_) => return Some(Item::End),
        }
        None
    }

    /// The peer reset the stream.
    fn reset(&mut self, code: Code) -> Item {
        let event = self.shared.with(|State { http, streams, .. }| {
            streams.get_mut(&self.id).map(|stream| http.reset(stream))
        });
        self.shared.changed.notify_waiters();
        match event {
            Some(Event::SessionLost) => Item::SessionLost,
            Some(Event::ConnectionError(code)) => self.shared.fail(code),
            Some(Event::Reset(Some(code))) => Item::Failed(code),
            _ => Item::Reset(code),
        }
    }

    /// Returns what is next in the bytes that there are.
    fn step(&mut self) -> Step {
        let shared = self.shared.clone();
        let mut state = shared.lock();
        if let Some(code) = state.doomed.remove(&self.id) {
            state.abandon(self.id);
            drop(state);
            return Step::Item(self.failed(code));
        }
        let waits = state.streams.get(&self.id).and_then(|stream| stream.waits());
        if let Some(Waits::Session(session)) = waits {
            let event = state.join(self.id, session);
            drop(state);
            return match event {
                Event::More => Step::Wait,
                event => self.step_of(event),
            };
        }
        let bytes = self.bytes.clone();
        let received = match state.receive(self.id, &bytes, self.fin) {
            Some(received) => received,
            None => return Step::Item(Item::End),
        };
        self.bytes.advance(received.consumed);
        let event = match received.event {
            Event::Joins(session) => state.join(self.id, session),
            Event::Data(piece) | Event::StreamData(piece) => {
                return Step::Item(Item::Data(bytes.slice_ref(piece)))
            }
            event => event,
        };
        drop(state);
        self.step_of(event)
    }

    /// Says what an event that is no content means for the stream.
    fn step_of(&mut self, event: Event<'_>) -> Step {
        match event {
            Event::More => return Step::More,
            Event::Waits(_) => return Step::Wait,
            Event::Skipped => return Step::Again,
            _ => self.shared.changed.notify_waiters(),
        }
        Step::Item(match event {
            Event::Headers(HeadersKind::Request, list) => Item::Request(Asked::of(&list), list),
            Event::SessionRequested(list) => Item::Request(Asked::Session, list),
            Event::SessionReady(status, _) => Item::SessionReady(status),
            Event::Rejected(status, _) => Item::Rejected(status),
            Event::Joined(session) => Item::Joined(session),
            Event::Datagram(payload) => Item::Datagram(payload.into()),
            Event::SessionClosed(close) => Item::SessionClosed(close),
            Event::SessionLost => Item::SessionLost,
            Event::TooLarge(_) => Item::TooLarge,
            Event::Malformed(rule) => self.failed(rule.code()),
            Event::StreamError(code) => self.failed(code),
            Event::NoMemory => self.failed(Code::H3_INTERNAL_ERROR),
            Event::ConnectionError(code) => self.shared.fail(code),
            Event::End => Item::End,
            // SETTINGS and other frames of the control stream, interim responses, trailers
            _ => return Step::Again,
        })
    }

    fn failed(&mut self, code: Code) -> Item {
        self.stop(code);
        Item::Failed(code)
    }
}

impl Drop for Reader {
    fn drop(&mut self) {
        self.shared.with(|state| {
            state.abandon(self.id);
            if !self.stays {
                state.streams.remove(&self.id);
            }
        });
        self.shared.changed.notify_waiters();
    }
}
