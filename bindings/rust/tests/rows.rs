//! Streams of messages and sessions, whole, in pieces of every size and cut at random places: the rows of
//! `c/tests/connection_rows.c` (draft-ietf-webtrans-http3-02, sections 3 and 5; RFC 9297, section 3.3; RFC
//! 9114, section 4).
mod support;

use support::{times, Player, Random, LIMITS};
use vesgrauf::{Asked, Connection, Endpoint, Event, Known, Stream};

/// CONNECT https://a/ for a session, in a HEADERS frame.
const REQUEST: &[u8] = b"\x01\x20\x00\x00\xcf\xd7\xc1\x50\x01a\x27\x02:protocol\x0cwebtransport";

/// A control stream with WebTransport and datagrams, as Chromium's.
const CONTROL: &[u8] = b"\x00\x04\x07\xab\x60\x37\x42\x01\x33\x01";

/// What comes on a stream: a request; the response to a request for a session; or, at a server that answers
/// with a status, what follows a request for a session, after SETTINGS or before them.
#[derive(Clone, Copy, PartialEq)]
enum What {
    Request,
    Response,
    Session(u32),
    Early(u32),
}
use What::*;

const REQUESTED: &str = "SessionRequested({\":method\": \"CONNECT\", \":scheme\": \"https\", \
    \":path\": \"/\", \":authority\": \"a\", \":protocol\": \"webtransport\"}); ";

/// Each row: what comes, its bytes, and the events after the request.
const ROWS: &[(What, &[u8], &str)] = &[
    // the stream ends; CLOSE with the code 1 and a reason, whole and in two DATA frames
    (Session(200), b"", "closed 0 ; End; "),
    (Session(200), b"\x00\x09\x68\x43\x06\x00\x00\x00\x01ab", "closed 1 ab; End; "),
    (Session(299), b"\x00\x04\x68\x43\x06\x00\x00\x05\x00\x00\x01ab", "closed 1 ab; End; "),
    // a byte, a reserved frame and HEADERS after CLOSE
    (Session(200), b"\x00\x0a\x68\x43\x06\x00\x00\x00\x01ab\x00", "closed 1 ab; stream error; "),
    (
        Session(200),
        b"\x00\x09\x68\x43\x06\x00\x00\x00\x01ab\x21\x00",
        "closed 1 ab; stream error; ",
    ),
    (
        Session(200),
        b"\x00\x07\x68\x43\x04\x00\x00\x00\x01\x01\x06\x00\x00\x21\x78\x01\x79",
        "closed 1 ; stream error; ",
    ),
    // CLOSE of three bytes, with a reason that is not UTF-8, of 1029 bytes, and cut
    (Session(200), b"\x00\x06\x68\x43\x03\x00\x00\x00", "stream error; SessionLost; "),
    (Session(200), b"\x00\x08\x68\x43\x05\x00\x00\x00\x01\xff", "stream error; SessionLost; "),
    (Session(200), b"\x00\x04\x68\x43\x44\x05", "stream error; SessionLost; "),
    (Session(200), b"\x00\x04\x68\x43\x06\x00", "stream error; SessionLost; "),
    // a reserved capsule
    (Session(200), b"\x00\x04\x17\x02\x01\x02", "closed 0 ; End; "),
    // datagrams: one, over three DATA frames, before other capsules, and cut by the end
    (Session(200), b"\x00\x04\x00\x02ab", "Datagram([97, 98]); closed 0 ; End; "),
    (
        Session(200),
        b"\x00\x04\x00\x01a\x00\x00\x02\x00\x40\x00\x03\x00\x01b",
        "Datagram([97]); Datagram([]); Datagram([98]); closed 0 ; End; ",
    ),
    (
        Session(200),
        b"\x00\x0f\x00\x01a\x17\x01\xff\x68\x43\x06\x00\x00\x00\x01ab",
        "Datagram([97]); closed 1 ab; End; ",
    ),
    (Session(200), b"\x00\x03\x00\x02a", "stream error; SessionLost; "),
    // DRAIN, and with a value
    (
        Session(200),
        b"\x00\x08\x80\x00\x78\xae\x00\x00\x01a",
        "Draining; Datagram([97]); closed 0 ; End; ",
    ),
    (Session(200), b"\x00\x06\x80\x00\x78\xae\x01a", "stream error; SessionLost; "),
    // a DATA frame that is cut; HEADERS in an open session; a session that is refused
    (
        Session(200),
        b"\x00\x05\x00\x01a",
        "Datagram([97]); ConnectionError(H3_FRAME_ERROR (0x106)); ",
    ),
    (
        Session(200),
        b"\x01\x06\x00\x00\x21\x78\x01\x79",
        "ConnectionError(H3_FRAME_UNEXPECTED (0x105)); ",
    ),
    (Session(404), b"\x00\x01a", "data 1; End; "),
    // a request before SETTINGS
    (Early(200), b"\x00\x09\x68\x43\x06\x00\x00\x00\x01ab", "closed 1 ab; End; "),
    // responses: accepted, refused, after an interim one, with trailers, malformed by two rules, and none
    (
        Response,
        b"\x01\x03\x00\x00\xd9\x00\x09\x68\x43\x06\x00\x00\x00\x01ab",
        "SessionReady(200, {\":status\": \"200\"}); closed 1 ab; End; ",
    ),
    (
        Response,
        b"\x01\x03\x00\x00\xdb\x00\x01a",
        "Rejected(404, {\":status\": \"404\"}); data 1; End; ",
    ),
    (
        Response,
        b"\x01\x03\x00\x00\xd8\x01\x03\x00\x00\xd9",
        "Headers(Interim(103), {\":status\": \"103\"}); \
         SessionReady(200, {\":status\": \"200\"}); closed 0 ; End; ",
    ),
    (
        Response,
        b"\x01\x03\x00\x00\xdb\x00\x01a\x01\x06\x00\x00\x21\x78\x01\x79",
        "Rejected(404, {\":status\": \"404\"}); data 1; Headers(Trailers, {\"x\": \"y\"}); End; ",
    ),
    (Response, b"\x01\x04\x00\x00\xff\x01", "Malformed(UnexpectedStatus); "),
    (Response, b"\x01\x04\x00\x00\xd9\xf4", "Malformed(ContentField); "),
    (Response, b"", "stream error; "),
    // a request without :path, one whose section cannot be decoded, and one with content
    (Request, b"\x01\x07\x00\x00\xd1\xd7\x50\x01a", "Malformed(MissingPath); "),
    (Request, b"\x01\x03\x02\x00\xd1", "ConnectionError(QPACK_DECOMPRESSION_FAILED (0x200)); "),
    (
        Request,
        b"\x01\x08\x00\x00\xd1\xd7\xc1\x50\x01a\x00\x02hi",
        "Headers(Request, {\":method\": \"GET\", \":scheme\": \"https\", \":path\": \"/\", \
         \":authority\": \"a\"}); data 2; End; ",
    ),
];

/// Returns the events of a row whose bytes come in these pieces. `pushes`: each piece comes once.
fn play(what: What, pieces: &[&[u8]], pushes: bool) -> String {
    let (endpoint, status) = match what {
        Response => (Endpoint::client(LIMITS), 200),
        Request => (Endpoint { webtransport: false, ..Endpoint::server(LIMITS) }, 200),
        Session(status) | Early(status) => (Endpoint::server(LIMITS), status),
    };
    let mut player = Player::new(endpoint, status);
    player.pushes = pushes;
    let control = |player: &mut Player| {
        player.accept(2);
        player.play(2, &[CONTROL], false);
    };
    match what {
        Response => {
            let stream = player.connection.open(Asked::Session);
            player.add(0, stream);
        }
        Session(_) => {
            control(&mut player);
            player.accept(0);
        }
        _ => player.accept(0),
    }
    player.play(0, pieces, true);
    if let Early(_) = what {
        assert_eq!(player.text(0), "");
        control(&mut player);
    }
    player.text(0)
}

/// Writes the events of a row in full.
fn expected(what: What, events: &str) -> String {
    // the code of what is malformed (RFC 9297, section 3.3; RFC 9114, section 4.1.2)
    let mut text = String::new();
    for event in events.split_inclusive("; ") {
        match event.strip_prefix("closed ").and_then(|rest| rest.split_once(' ')) {
            Some((code, reason)) => {
                let reason = reason.strip_suffix("; ").unwrap();
                text += &format!("SessionClosed(Close {{ code: {code}, reason: {reason:?} }}); ");
            }
            None => text += &event.replace("stream error", "StreamError(H3_MESSAGE_ERROR (0x10e))"),
        }
    }
    match what {
        Session(_) | Early(_) => REQUESTED.to_string() + &text,
        _ => text,
    }
}

#[test]
fn rows_in_pieces_of_every_size_and_at_random() {
    let mut random = Random(1);
    for (what, bytes, events) in ROWS {
        let mut whole = Vec::new();
        if matches!(what, Session(_) | Early(_)) {
            whole.extend_from_slice(REQUEST);
        }
        whole.extend_from_slice(bytes);
        let wanted = expected(*what, events);
        for pushes in [false, true] {
            assert_eq!(play(*what, &[&whole[..]], pushes), wanted, "{bytes:x?}");
            for step in (1..=whole.len()).take(times(whole.len())) {
                let pieces: Vec<_> = whole.chunks(step).collect();
                assert_eq!(play(*what, &pieces, pushes), wanted, "{bytes:x?} by {step}");
            }
            for _ in 0..times(100) {
                let pieces = random.pieces(&whole);
                assert_eq!(play(*what, &pieces, pushes), wanted, "{bytes:x?} in {pieces:x?}");
            }
        }
    }
}

fn server() -> Connection {
    Connection::new(Endpoint::server(LIMITS)).unwrap()
}

/// A bidirectional stream of the session 0.
const OF_0: &[u8] = b"\x40\x41\x00ab";

#[test]
fn streams_join_their_session() {
    let mut connection = server();
    let mut stream = connection.accept(4);
    assert_eq!(stream.belongs(), None);
    let received = connection.receive(&mut stream, OF_0, true);
    assert_eq!((received.event, received.consumed), (Event::Joins(0), 3));
    assert_eq!(connection.known(0, None), Known::Coming);
    assert_eq!(connection.known(1, None), Known::Impossible);
    let waits = vesgrauf::Waits::Session(0);
    assert_eq!(connection.join(&mut stream, Known::Coming), Event::Waits(waits));
    assert_eq!((stream.waits(), stream.belongs()), (Some(waits), Some(0)));
    assert_eq!(connection.receive(&mut stream, b"ab", true).event, Event::Waits(waits));
    assert_eq!(connection.join(&mut stream, Known::Open), Event::Joined(0));
    assert_eq!(connection.receive(&mut stream, b"ab", true).event, Event::StreamData(b"ab"));
    assert_eq!(connection.receive(&mut stream, b"", true).event, Event::End);
}

#[test]
fn streams_of_no_session_are_refused() {
    use vesgrauf::error::Code;
    let mut connection = server();
    let mut stream = connection.accept(8);
    connection.receive(&mut stream, OF_0, false);
    let gone = Event::StreamError(Code::WEBTRANSPORT_SESSION_GONE);
    assert_eq!(connection.join(&mut stream, Known::Over), gone);
    assert_eq!(connection.reset(&mut stream), Event::More);
    // 16 wait, and the next one is refused
    for id in 0..17 {
        let mut stream = connection.accept(12 + 4 * id);
        connection.receive(&mut stream, OF_0, false);
        let event = connection.join(&mut stream, Known::Coming);
        match id {
            16 => {
                assert_eq!(event, Event::StreamError(Code::WEBTRANSPORT_BUFFERED_STREAM_REJECTED))
            }
            _ => assert_eq!(event, Event::Waits(vesgrauf::Waits::Session(0))),
        }
    }
    // an ID that no session has ends the connection
    let mut stream = connection.accept(96);
    connection.receive(&mut stream, OF_0, false);
    let error = Event::ConnectionError(Code::H3_ID_ERROR);
    assert_eq!(connection.join(&mut stream, Known::Impossible), error);
    let received = connection.receive(&mut stream, b"abc", false);
    assert_eq!((received.event, received.consumed), (Event::More, 3));
}

#[test]
fn each_call_that_ends_a_session_tells_it_once() {
    let ends: [fn(&mut Connection, &mut Stream) -> Event<'static>; 3] =
        [Connection::reset, Connection::stop, Connection::abandon];
    for end in ends {
        let mut player = Player::new(Endpoint::server(LIMITS), 200);
        player.accept(2);
        player.play(2, &[CONTROL], false);
        assert!(player.connection.allows_sessions());
        player.accept(0);
        player.play(0, &[REQUEST], false);
        // a datagram of a capsule that is cut is held: it is lost with the session
        player.play(0, &[b"\x00\x09\x00\x05abc"], false);
        let Player { connection, streams, .. } = &mut player;
        let stream = &mut streams.get_mut(&0).unwrap().pushed.stream;
        assert_eq!(connection.known(0, Some(stream)), Known::Open);
        assert_eq!(end(connection, stream), Event::SessionLost);
        assert_eq!(connection.known(0, Some(stream)), Known::Over);
        assert_eq!(connection.reset(stream), Event::More);
    }
}

#[test]
fn datagrams_of_sessions() {
    use vesgrauf::error::Code;
    use vesgrauf::{DatagramFor, Purpose};
    let mut connection = server();
    assert_eq!(connection.datagram(b"\x01ab"), Ok(Some((4, &b"ab"[..]))));
    assert_eq!(Known::Open.datagram_for(), DatagramFor::Deliver);
    assert_eq!(Known::Coming.datagram_for(), DatagramFor::Early);
    assert_eq!(Known::Over.datagram_for(), DatagramFor::Discard);
    assert_eq!(Known::Other.datagram_for(), DatagramFor::EndStream);
    assert_eq!(connection.stopped(Purpose::Session), None);
    let code = connection.stopped(Purpose::Control);
    assert_eq!(code, Some(Code::H3_CLOSED_CRITICAL_STREAM));
    let mut connection = server();
    assert_eq!(connection.datagram(b""), Err(Code::H3_DATAGRAM_ERROR));
    assert_eq!(connection.datagram(b"\x01ab"), Ok(None));
}

#[test]
fn a_client_reads_what_a_server_says() {
    let mut player = Player::new(Endpoint::client(LIMITS), 0);
    assert!(!player.connection.allows_sessions());
    // SETTINGS with WebTransport, datagrams and extended CONNECT, and GOAWAY with the ID 4
    player.accept(3);
    player.play(3, &[b"\x00\x04\x09\xab\x60\x37\x42\x01\x33\x01\x08\x01\x07\x01\x04"], false);
    assert!(player.connection.allows_sessions());
    assert!(!player.connection.is_unprocessed(0) && player.connection.is_unprocessed(4));
    let mut own = Stream::of_session(0);
    let received = player.connection.receive(&mut own, b"hi", true);
    assert_eq!(received.event, Event::StreamData(b"hi"));
}

#[test]
fn limits_are_kept() {
    use vesgrauf::Limits;
    let limits = Limits { max_section: 16, max_fields: 40, max_datagram: 2 };
    let mut player = Player::new(Endpoint::server(limits), 200);
    player.accept(0);
    player.play(0, &[REQUEST], false); // 32 bytes
    assert_eq!(player.text(0), "TooLarge(Some(32)); ");
    player.accept(4);
    player.play(4, &[b"\x01\x08\x00\x00\xd1\xd7\xc1\x50\x01a"], true); // four fields
    assert_eq!(player.text(4), "TooLarge(None); ");
    let limits = Limits { max_datagram: 65_536, ..LIMITS };
    assert!(Connection::new(Endpoint::server(limits)).is_err());
}
