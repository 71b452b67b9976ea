//! What tests have in common: random numbers, and a connection that is read in pieces.
#![allow(dead_code)] // each test uses a part

pub mod json;

use std::collections::BTreeMap;
use std::fmt::Write;
use vesgrauf::{Connection, Endpoint, Event, Limits, PushedStream, Stream, Waits};

pub const LIMITS: Limits = Limits { max_section: 65_536, max_fields: 16_384, max_datagram: 1_200 };

/// How many times a test is done: fewer under valgrind, where VESGRAUF_CUTS divides it.
pub fn times(number: usize) -> usize {
    let cuts = std::env::var("VESGRAUF_CUTS").ok().map(|cuts| cuts.parse::<usize>().unwrap());
    cuts.map_or(number, |cuts| (number / cuts).max(1))
}

/// Random numbers by a seed (splitmix64).
pub struct Random(pub u64);

impl Random {
    /// Returns a number below `bound`.
    pub fn below(&mut self, bound: usize) -> usize {
        self.0 = self.0.wrapping_add(0x9e37_79b9_7f4a_7c15);
        let mut z = self.0;
        z = (z ^ (z >> 30)).wrapping_mul(0xbf58_476d_1ce4_e5b9);
        z = (z ^ (z >> 27)).wrapping_mul(0x94d0_49bb_1331_11eb);
        ((z ^ (z >> 31)) % bound as u64) as usize
    }

    /// Cuts bytes into pieces at random places.
    pub fn pieces<'a>(&mut self, bytes: &'a [u8]) -> Vec<&'a [u8]> {
        let longest = 1 + self.below(bytes.len().max(1));
        let (mut pieces, mut rest) = (Vec::new(), bytes);
        while !rest.is_empty() {
            let size = (1 + self.below(longest)).min(rest.len());
            pieces.push(&rest[..size]);
            rest = &rest[size..];
        }
        pieces
    }
}

/// The events of a stream as text, and its content.
#[derive(Default)]
pub struct Events {
    pub text: String,
    pub content: Vec<u8>,
    /// How many bytes of the content are not in the text yet.
    data: usize,
}

/// A stream of the peer: what was not consumed, whether it ended, and its events.
pub struct Read {
    pub pushed: PushedStream,
    bytes: Vec<u8>,
    fin: bool,
    pub events: Events,
}

/// A connection whose streams come in pieces. Requests for sessions are answered with `status`.
pub struct Player {
    pub connection: Connection,
    pub streams: BTreeMap<u64, Read>,
    pub status: u32,
    /// Whether each piece is pushed once; otherwise what was not consumed is passed again.
    pub pushes: bool,
    /// Whether something changed for which a stream may wait.
    changed: bool,
}

impl Player {
    pub fn new(endpoint: Endpoint, status: u32) -> Self {
        let connection = Connection::new(endpoint).unwrap();
        Player { connection, streams: BTreeMap::new(), status, pushes: false, changed: false }
    }

    pub fn add(&mut self, id: u64, stream: Stream) {
        let pushed = PushedStream::new(stream, 16 + LIMITS.max_section as usize);
        let read = Read { pushed, bytes: Vec::new(), fin: false, events: Events::default() };
        self.streams.insert(id, read);
    }

    pub fn accept(&mut self, id: u64) {
        let stream = self.connection.accept(id);
        self.add(id, stream);
    }

    /// Passes the next bytes of a stream.
    pub fn receive(&mut self, id: u64, piece: &[u8], fin: bool) {
        let read = self.streams.get_mut(&id).unwrap();
        read.fin |= fin;
        self.read(id, piece);
        while std::mem::take(&mut self.changed) {
            let waiting =
                self.streams.iter().filter(|(_, read)| read.pushed.stream.waits().is_some());
            let waiting: Vec<u64> = waiting.map(|(id, _)| *id).collect();
            for id in waiting {
                self.wake(id);
            }
        }
    }

    /// Passes all bytes of a stream, in these pieces.
    pub fn play(&mut self, id: u64, pieces: &[&[u8]], fin: bool) {
        for piece in pieces {
            self.receive(id, piece, false);
        }
        if fin {
            self.receive(id, b"", true);
        }
    }

    /// Returns the events of a stream as text, in which pieces of content that follow each other are one.
    pub fn text(&mut self, id: u64) -> String {
        flush(&mut self.streams.get_mut(&id).unwrap().events).into()
    }

    fn wake(&mut self, id: u64) {
        let waits = self.streams[&id].pushed.stream.waits();
        match waits {
            Some(Waits::Session(session)) => self.join(id, session),
            Some(Waits::Answer) => {
                self.streams.get_mut(&id).unwrap().pushed.stream.answer(self.status);
                self.changed = true;
            }
            _ => {}
        }
        self.read(id, b"");
    }

    fn join(&mut self, id: u64, session: u64) {
        let its = self.streams.get(&session).map(|its| &its.pushed.stream);
        let known = self.connection.known(session, its);
        let read = self.streams.get_mut(&id).unwrap();
        match self.connection.join(&mut read.pushed.stream, known) {
            Event::More | Event::Waits(_) => {}
            event => tell(&mut read.events, &event),
        }
    }

    /// Reads what is next, with a piece that was not passed before.
    fn read(&mut self, id: u64, mut piece: &[u8]) {
        for _ in 0..10_000 {
            let read = self.streams.get_mut(&id).unwrap();
            let bytes;
            let event = if self.pushes {
                let pushed = self.connection.receive_pushed(&mut read.pushed, piece, read.fin);
                piece = &piece[pushed.taken..];
                pushed.event
            } else {
                read.bytes.extend_from_slice(std::mem::take(&mut piece));
                bytes = std::mem::take(&mut read.bytes);
                let stream = &mut read.pushed.stream;
                let received = self.connection.receive(stream, &bytes, read.fin);
                assert!(received.consumed <= bytes.len());
                read.bytes = bytes[received.consumed..].to_vec();
                received.event
            };
            match event {
                Event::More => return assert!(piece.is_empty()),
                Event::Waits(Waits::Answer) => {
                    assert!(piece.is_empty());
                    return self.wake(id);
                }
                Event::Waits(_) => return assert!(piece.is_empty()),
                Event::Joins(session) => self.join(id, session),
                event => {
                    self.changed |= !matches!(event, Event::Data(_) | Event::StreamData(_));
                    tell(&mut read.events, &event);
                }
            }
        }
        panic!("the stream {id} does not end");
    }
}

/// Appends an event to the text of its stream.
pub fn tell(events: &mut Events, event: &Event<'_>) {
    match event {
        Event::Data(bytes) | Event::StreamData(bytes) => {
            events.content.extend_from_slice(bytes);
            events.data += bytes.len();
        }
        Event::Opened(_) | Event::Skipped => {}
        event => {
            flush(events);
            write!(events.text, "{event:?}; ").unwrap();
        }
    }
}

/// Returns the events as text, in which pieces of content that follow each other are one.
pub fn flush(events: &mut Events) -> &str {
    if events.data > 0 {
        write!(events.text, "data {}; ", events.data).unwrap();
        events.data = 0;
    }
    &events.text
}
