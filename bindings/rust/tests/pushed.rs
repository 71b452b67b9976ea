//! Streams whose bytes come once, in chunks: what is held, and how much (the rows of
//! `c/tests/connection_pushes.c`; draft-ietf-webtrans-http3-07, section 4.5). That their events are those of
//! the same bytes whole is in `rows.rs` and `recordings.rs`.
mod support;

use support::LIMITS;
use vesgrauf::error::Code;
use vesgrauf::{Connection, Endpoint, Event, Known, Purpose, PushedStream, Waits};

/// A bidirectional stream of the session 0.
const OF_0: &[u8] = b"\x40\x41\x00abcdefg";

fn server() -> Connection {
    Connection::new(Endpoint::server(LIMITS)).unwrap()
}

/// Begins a stream of the session 0, which is to come, and holds at most so many bytes.
fn waiting(connection: &mut Connection, most: usize) -> PushedStream {
    let mut pushed = PushedStream::new(connection.accept(4), most);
    let next = connection.receive_pushed(&mut pushed, &OF_0[..5], false);
    assert_eq!((next.event, next.taken, next.consumed), (Event::Joins(0), 3, 3));
    let event = connection.join(&mut pushed.stream, Known::Coming);
    assert_eq!(event, Event::Waits(Waits::Session(0)));
    pushed
}

/// Passes a chunk to a stream that waits. Returns how many of its bytes were taken.
fn wait(connection: &mut Connection, pushed: &mut PushedStream, chunk: &[u8], fin: bool) -> usize {
    let next = connection.receive_pushed(pushed, chunk, fin);
    assert_eq!((next.event, next.consumed), (Event::Waits(Waits::Session(0)), 0));
    next.taken
}

#[test]
fn a_stream_that_waits_holds_its_bytes_and_its_end() {
    let mut connection = server();
    let mut pushed = waiting(&mut connection, 8);
    assert_eq!(wait(&mut connection, &mut pushed, b"ab", false), 2);
    assert_eq!((wait(&mut connection, &mut pushed, b"cdefg", true), pushed.held()), (5, 7));
    assert_eq!(connection.join(&mut pushed.stream, Known::Open), Event::Joined(0));
    // the end need not be said again
    let next = connection.receive_pushed(&mut pushed, b"", false);
    assert_eq!((next.event, next.consumed), (Event::StreamData(b"abcdefg"), 7));
    assert_eq!(connection.receive_pushed(&mut pushed, b"", false).event, Event::End);
    assert_eq!(pushed.held(), 0);
}

#[test]
fn no_more_is_held_than_may_be() {
    let mut connection = server();
    let mut pushed = waiting(&mut connection, 4);
    assert_eq!(wait(&mut connection, &mut pushed, b"abc", false), 3);
    assert_eq!((wait(&mut connection, &mut pushed, b"defg", true), pushed.held()), (0, 3));
    let event = connection.overflow(&mut pushed.stream);
    assert_eq!(event, Event::StreamError(Code::WEBTRANSPORT_BUFFERED_STREAM_REJECTED));
    let mut same = pushed.clone();
    assert_eq!((pushed.discard(), pushed.held()), (3, 0));
    let next = connection.receive_pushed(&mut pushed, b"defg", true);
    assert_eq!((next.event, next.taken, next.consumed), (Event::More, 4, 4));
    // what is held is consumed too if it is not dropped: first as much as there is room for
    let next = connection.receive_pushed(&mut same, b"defg", true);
    assert_eq!((next.event, next.taken, next.consumed), (Event::Skipped, 1, 4));
    let next = connection.receive_pushed(&mut same, b"efg", true);
    assert_eq!((next.event, next.taken, next.consumed), (Event::More, 3, 3));
}

#[test]
fn requests_come_byte_by_byte() {
    // GET https://a/ with the fields of RFC 9114, section 4.3.1, and content
    let bytes = b"\x01\x08\x00\x00\xd1\xd7\xc1\x50\x01a\x00\x02hi";
    let mut connection = server();
    let mut pushed = PushedStream::new(connection.accept(0), 4_112);
    let (mut consumed, mut seen) = (0, Vec::new());
    for at in 0..bytes.len() {
        let (mut chunk, fin) = (&bytes[at..at + 1], at + 1 == bytes.len());
        loop {
            let next = connection.receive_pushed(&mut pushed, chunk, fin);
            chunk = &chunk[next.taken..];
            consumed += next.consumed;
            match next.event {
                Event::More => break,
                Event::Headers(_, fields) => {
                    seen.push(fields.first(b":authority").unwrap().to_vec())
                }
                Event::Data(piece) => seen.push(piece.to_vec()),
                Event::End => seen.push(b"end".to_vec()),
                Event::Opened(Purpose::Message) | Event::Skipped => {}
                event => panic!("{event:?}"),
            }
        }
        assert!(chunk.is_empty());
        assert_eq!(pushed.held(), at + 1 - consumed);
    }
    assert_eq!(
        (seen, consumed),
        (vec![b"a".to_vec(), b"h".to_vec(), b"i".to_vec(), b"end".to_vec()], bytes.len())
    );
}
