//! What may be sent and what is refused: the rows of `c/tests/sending_messages.c`, `sending_sessions.c` and
//! `sending_words.c`. The bytes are those of RFC 9114, section 7.2; RFC 9204, section 4.5 and appendix A;
//! RFC 7541, appendix B; draft-ietf-webtrans-http3-02, sections 4 and 5; draft-ietf-webtrans-http3-07, section
//! 4.6; and RFC 9297, section 2.1.
mod support;

use support::LIMITS;
use vesgrauf::fields::FieldList;
use vesgrauf::goaway::Goaway;
use vesgrauf::malformed::Malformed;
use vesgrauf::sending::{ControlSending, Refused, SendError, Sending};
use vesgrauf::session::{SessionRequest, SessionResponse};
use vesgrauf::settings::{SettingId, Settings};
use vesgrauf::{Asked, Connection, Endpoint, Event, Purpose};

/// A call, with fields as lines `name value`.
#[derive(Clone, Copy, Debug)]
enum Call {
    Headers(&'static str),
    Trailers(&'static str),
    Data(u64),
    Sent(u64),
    Finish,
    Connected,
    Unidirectional,
    Bidirectional,
    Datagram,
    Drain,
    Close(u32, &'static str),
}
use Call::*;

/// What a call appends, or why it is refused.
type Wanted = Result<&'static [u8], Refused>;

const UNEXPECTED: Wanted = Err(Refused::Send(SendError::Unexpected));
const NOT_OPEN: Wanted = Err(Refused::SessionNotOpen);
const DATA_MISSING: Wanted = refused(SendError::DataMissing);
const TOO_LONG: Wanted = malformed(Malformed::ContentTooLong);
const TOO_SHORT: Wanted = malformed(Malformed::ContentTooShort);
const TOLD: Wanted = Ok(b"");

const fn refused(error: SendError) -> Wanted {
    Err(Refused::Send(error))
}

const fn malformed(rule: Malformed) -> Wanted {
    refused(SendError::Malformed(rule))
}

fn list(lines: &str) -> FieldList {
    lines.lines().map(|line| line.split_once(' ').unwrap()).collect()
}

/// Makes calls one after another. One that is refused appends nothing and changes nothing.
fn play(sending: &mut Sending, rows: &[(Call, Wanted)]) {
    for (place, (call, wanted)) in rows.iter().enumerate() {
        let (before, mut out) = (sending.clone(), b"before".to_vec());
        let result = match *call {
            Headers(lines) => sending.headers(&list(lines), &mut out),
            Trailers(lines) => sending.trailers(&list(lines), &mut out),
            Data(length) => sending.data(length, &mut out),
            Sent(length) => sending.sent(length),
            Finish => sending.finish(),
            Connected => sending.connected(),
            Unidirectional => sending.unidirectional(&mut out),
            Bidirectional => sending.bidirectional(&mut out),
            Datagram => sending.datagram(&mut out),
            Drain => sending.drain(&mut out),
            Close(code, reason) => sending.close(code, reason, &mut out),
        };
        assert!(out.starts_with(b"before"));
        assert_eq!(result.map(|()| &out[6..]), *wanted, "{place}: {call:x?}");
        assert!(result.is_ok() || (out.len() == 6 && *sending == before), "{place}: {call:?}");
    }
}

fn connection(endpoint: Endpoint) -> Connection {
    Connection::new(endpoint).unwrap()
}

fn server() -> Connection {
    connection(Endpoint::server(LIMITS))
}

/// A client that has read the control stream of a server with these settings.
fn client(settings: &[u8]) -> Connection {
    let mut client = connection(Endpoint::client(LIMITS));
    read_control(&mut client, 3, &[b"\x00\x04", settings].concat());
    client
}

fn read_control(connection: &mut Connection, id: u64, mut bytes: &[u8]) {
    let mut stream = connection.accept(id);
    loop {
        let received = connection.receive(&mut stream, bytes, false);
        bytes = &bytes[received.consumed..];
        match received.event {
            Event::More => return assert!(bytes.is_empty()),
            Event::Opened(_) | Event::Settings(_) | Event::GoAway(_) => {}
            event => panic!("{event:?}"),
        }
    }
}

fn response(connection: &Connection, id: u64, asked: Asked) -> Sending {
    Sending::response(connection, id, asked).unwrap()
}

const SESSIONS: &[u8] = b"\x09\x08\x01\x33\x01\xab\x60\x37\x42\x01";
const OK: Call = Headers(":status 200");
const OK_BYTES: Wanted = Ok(b"\x01\x03\x00\x00\xd9");
const HINTS: (Call, Wanted) = (Headers(":status 103"), Ok(b"\x01\x03\x00\x00\xd8"));
/// A section of 173 bytes.
const LARGE: Call = Trailers(
    "a 1234567890123456789012345678901234567890123456789012345678901234567890123456789012345678901234567890\
    1234567890123456789012345678901234567890",
);
const SNIFF: Call = Trailers("x-content-type-options nosniff");
const GET: Call = Headers(":method GET\n:scheme https\n:authority a\n:path /");
const SESSION: Call =
    Headers(":method CONNECT\n:scheme https\n:authority a\n:path /\n:protocol webtransport");

#[test]
fn a_response_with_content_and_trailers() {
    let mut sending = response(&server(), 0, Asked::Other);
    play(
        &mut sending,
        &[
            HINTS,
            (Data(3), UNEXPECTED),
            (SNIFF, UNEXPECTED),
            (Finish, malformed(Malformed::MissingHead)),
            (
                Headers(":status 200\ncontent-length 5"),
                Ok(b"\x01\x06\x00\x00\xd9\x54\x015"),
            ),
            (OK, UNEXPECTED),
            (Data(0), refused(SendError::EmptyData)),
            (Data(1 << 62), refused(SendError::TooLarge)),
            (Data(u64::MAX), refused(SendError::TooLarge)),
            (Data(6), TOO_LONG),
            (Data(3), Ok(b"\x00\x03")),
        ],
    );
    assert_eq!(sending.owed(), 3);
    play(
        &mut sending,
        &[
            (Data(2), DATA_MISSING),
            (SNIFF, DATA_MISSING),
            (Finish, DATA_MISSING),
            (Sent(4), refused(SendError::DataExceeded)),
            (Sent(1), TOLD),
        ],
    );
    assert_eq!(sending.owed(), 2);
    play(
        &mut sending,
        &[
            (Sent(2), TOLD),
            (Finish, TOO_SHORT),
            (SNIFF, TOO_SHORT),
            (Data(2), Ok(b"\x00\x02")),
            (Sent(2), TOLD),
            (Trailers(":status 200"), malformed(Malformed::UnknownPseudoHeader)),
            (SNIFF, Ok(b"\x01\x03\x00\x00\xfd")),
            (SNIFF, UNEXPECTED),
            (Data(2), UNEXPECTED),
            (Finish, TOLD),
            (Finish, UNEXPECTED),
            (OK, UNEXPECTED),
        ],
    );
    assert_eq!(sending.owed(), 0);
}

#[test]
fn responses_by_what_was_asked() {
    let server = server();
    let mut sending = response(&server, 4, Asked::Head);
    play(&mut sending, &[HINTS; 64]);
    let (hints, _) = HINTS;
    play(
        &mut sending,
        &[
            (hints, refused(SendError::TooManyInterim)),
            (OK, OK_BYTES),
            (Data(3), TOO_LONG),
            (Finish, TOLD),
        ],
    );
    let mut sending = response(&server, 8, Asked::Connect);
    let rows = [(OK, OK_BYTES), (SNIFF, UNEXPECTED), (Data(3), Ok(b"\x00\x03"))];
    play(&mut sending, &rows);
    let asked = |method: &str| Asked::of(&[(":method", method)].into());
    assert_eq!(
        [
            asked("GET"),
            asked("HEAD"),
            asked("CONNECT"),
            asked("head"),
            Asked::of(&FieldList::new())
        ],
        [Asked::Other, Asked::Head, Asked::Connect, Asked::Other, Asked::Other]
    );
}

#[test]
fn a_tunnel_waits_for_its_answer() {
    let mut sending = Sending::request(&client(b"\x00"), 8).unwrap();
    play(
        &mut sending,
        &[
            (Connected, UNEXPECTED),
            (Headers(":method CONNECT\n:authority a:1"), Ok(b"\x01\x08\x00\x00\xcf\x50\x03a:1")),
            (Data(3), UNEXPECTED),
            (Connected, TOLD),
            (Connected, UNEXPECTED),
            (Unidirectional, NOT_OPEN),
            (Data((1 << 62) - 1), Ok(b"\x00\xff\xff\xff\xff\xff\xff\xff\xff")),
            (Finish, DATA_MISSING),
            (Sent((1 << 62) - 1), TOLD),
            (SNIFF, UNEXPECTED),
            (Finish, TOLD),
        ],
    );
}

const LINES: &str = ":method GET\n:scheme https\n:authority a\n:path /\n";

/// Each rule, with lines of which the last breaks it: of a request, or of the response to what was asked.
const RULES: &[(Option<Asked>, Malformed, &str, &str)] = &[
    (None, Malformed::InvalidName, LINES, "A b"),
    (None, Malformed::InvalidName, LINES, "a(b c"),
    (None, Malformed::InvalidValue, LINES, "a b\x07"),
    (None, Malformed::InvalidValue, LINES, "a b "),
    (None, Malformed::ConnectionField, LINES, "transfer-encoding chunked"),
    (None, Malformed::ConnectionField, LINES, "connection close"),
    (None, Malformed::InvalidTe, LINES, "te gzip"),
    (None, Malformed::UnknownPseudoHeader, LINES, ":status 200"),
    (
        None,
        Malformed::LatePseudoHeader,
        ":method GET\n:scheme https\n:authority a\nb c\n",
        ":path /",
    ),
    (None, Malformed::RepeatedPseudoHeader, LINES, ":path /"),
    (None, Malformed::InvalidContentLength, LINES, "content-length -1"),
    (None, Malformed::MissingMethod, ":scheme https\n:authority a\n", ":path /"),
    (None, Malformed::InvalidMethod, ":method G T\n:scheme https\n:authority a\n", ":path /"),
    (None, Malformed::MissingScheme, ":method GET\n:authority a\n", ":path /"),
    (None, Malformed::InvalidScheme, ":method GET\n:scheme 1\n:authority a\n", ":path /"),
    (None, Malformed::MissingPath, ":method GET\n:scheme https\n", ":authority a"),
    (None, Malformed::InvalidPath, ":method GET\n:scheme https\n:authority a\n", ":path b"),
    (None, Malformed::MissingAuthority, ":method GET\n:scheme https\n", ":path /"),
    (None, Malformed::InvalidAuthority, ":method GET\n:scheme https\n:path /\n", ":authority u@a"),
    (None, Malformed::ConnectWithTarget, ":method CONNECT\n:authority a:1\n", ":path /"),
    (
        None,
        Malformed::UnexpectedProtocol,
        ":method CONNECT\n:scheme https\n:authority a\n:path /\n",
        ":protocol webtransport",
    ),
    (Some(Asked::Other), Malformed::MissingStatus, "", "a b"),
    (Some(Asked::Other), Malformed::InvalidStatus, "", ":status 101"),
    (Some(Asked::Other), Malformed::InvalidStatus, "", ":status 20"),
    (Some(Asked::Other), Malformed::InvalidTe, ":status 200\n", "te trailers"),
    (Some(Asked::Session), Malformed::UnexpectedStatus, "", ":status 204"),
    (Some(Asked::Session), Malformed::ContentField, ":status 200\n", "content-type a/b"),
    // RFC 9110, sections 8.6 and 9.3.6: they may be received
    (Some(Asked::Other), Malformed::InvalidContentLength, ":status 103\n", "content-length 5"),
    (Some(Asked::Head), Malformed::InvalidContentLength, ":status 204\n", "content-length 5"),
    (Some(Asked::Connect), Malformed::InvalidContentLength, ":status 200\n", "content-length 5"),
];

#[test]
fn a_message_that_breaks_a_rule_is_refused_with_it() {
    let (client, server) = (connection(Endpoint::client(LIMITS)), server());
    for (asked, rule, lines, last) in RULES {
        let (mut sending, valid) = match *asked {
            None => (Sending::request(&client, 0).unwrap(), LINES),
            Some(asked) => (response(&server, 0, asked), ":status 200"),
        };
        let (before, mut out) = (sending.clone(), Vec::new());
        let result = sending.headers(&list(&format!("{lines}{last}")), &mut out);
        assert_eq!(result, malformed(*rule).map(|_| ()), "{lines}{last}");
        assert!(sending == before && out.is_empty());
        // a message without the fault may then be sent
        assert_eq!(sending.headers(&list(valid), &mut out), Ok(()));
    }
}

#[test]
fn the_settings_of_the_peer_say_what_may_be_sent() {
    // sections of 167 bytes; then each setting has its default, and then extended CONNECT without sessions
    let mut sending = Sending::request(&client(b"\x03\x06\x40\xa7"), 4).unwrap();
    play(
        &mut sending,
        &[
            (
                Headers(":method GET\n:scheme https\n:authority ab\n:path /"),
                refused(SendError::TooLarge),
            ),
            (GET, Ok(b"\x01\x08\x00\x00\xd1\xd7\x50\x01a\xc1")),
            (LARGE, refused(SendError::TooLarge)),
        ],
    );
    let mut sending = Sending::request(&connection(Endpoint::client(LIMITS)), 0).unwrap();
    play(
        &mut sending,
        &[
            (
                Headers(":method GET\n:scheme https\n:authority ab\n:path /"),
                Ok(b"\x01\x09\x00\x00\xd1\xd7\x50\x02ab\xc1"),
            ),
            (SESSION, UNEXPECTED),
        ],
    );
    let mut sending = Sending::request(&client(b"\x02\x08\x01"), 4).unwrap();
    play(&mut sending, &[(SESSION, refused(SendError::Unsupported))]);
}

/// No session is open.
const CLOSED: &[(Call, Wanted)] = &[
    (Unidirectional, NOT_OPEN),
    (Bidirectional, NOT_OPEN),
    (Datagram, NOT_OPEN),
    (Drain, NOT_OPEN),
    (Close(7, "bye"), NOT_OPEN),
];

/// The session of the stream 4 is open, until it is closed.
const OPEN: &[(Call, Wanted)] = &[
    (Unidirectional, Ok(b"\x40\x54\x04")),
    (Bidirectional, Ok(b"\x40\x41\x04")),
    (Datagram, Ok(b"\x01")),
    (Drain, Ok(b"\x00\x05\x80\x00\x78\xae\x00")),
    (Data(1), UNEXPECTED),
    (SNIFF, UNEXPECTED),
    (Close(7, "bye"), Ok(b"\x00\x0a\x68\x43\x07\x00\x00\x00\x07bye")),
];

#[test]
fn sessions_of_a_server() {
    let server = server();
    let mut sending = response(&server, 4, Asked::Session);
    for rows in [CLOSED, &[HINTS], CLOSED, &[(OK, OK_BYTES), (Connected, UNEXPECTED)], OPEN, CLOSED]
    {
        play(&mut sending, rows);
    }
    play(&mut sending, &[(Finish, UNEXPECTED)]);
    let mut sending = response(&server, 4, Asked::Session);
    let refused = (Headers(":status 404"), Ok(&b"\x01\x03\x00\x00\xdb"[..]));
    for rows in [&[refused][..], CLOSED, &[(Data(1), Ok(b"\x00\x01"))]] {
        play(&mut sending, rows);
    }
    // an ID of eight bytes
    let mut sending = response(&server, (1 << 62) - 4, Asked::Session);
    play(
        &mut sending,
        &[
            (OK, OK_BYTES),
            (Unidirectional, Ok(b"\x40\x54\xff\xff\xff\xff\xff\xff\xff\xfc")),
            (Bidirectional, Ok(b"\x40\x41\xff\xff\xff\xff\xff\xff\xff\xfc")),
            (Datagram, Ok(b"\xcf\xff\xff\xff\xff\xff\xff\xff")),
            (Close(1, ""), Ok(b"\x00\x07\x68\x43\x04\x00\x00\x00\x01")),
        ],
    );
}

#[test]
fn sessions_of_a_client() {
    let mut sending = Sending::request(&client(SESSIONS), 4).unwrap();
    let mut out = Vec::new();
    let request = SessionRequest::new("https://a/").fields().unwrap();
    assert_eq!(
        request,
        list(":method CONNECT\n:scheme https\n:protocol webtransport\n:authority a\n:path /")
    );
    sending.headers(&request, &mut out).unwrap();
    for rows in [CLOSED, &[(Data(1), UNEXPECTED), (Connected, TOLD)], OPEN, CLOSED] {
        play(&mut sending, rows);
    }
}

#[test]
fn reasons_have_at_most_1024_bytes() {
    let mut sending = response(&server(), 0, Asked::Session);
    play(&mut sending, &[(OK, OK_BYTES)]);
    let (before, mut out) = (sending.clone(), Vec::new());
    let too_large = Err(Refused::Send(SendError::TooLarge));
    assert_eq!(sending.close(0, &"a".repeat(1_025), &mut out), too_large);
    assert_eq!(sending.close(0, &"ö".repeat(513), &mut out), too_large);
    assert!(sending == before && out.is_empty());
    assert_eq!(sending.close(0, &"ö".repeat(512), &mut out), Ok(()));
    assert_eq!((out.len(), &out[..3]), (1_035, &b"\x00\x44\x08"[..]));
}

#[test]
fn connections_on_which_no_message_begins() {
    let (mut client, mut server) = (client(SESSIONS), server());
    for id in [1, 2, 3, 1 << 62, u64::MAX] {
        assert_eq!(Sending::request(&client, id), Err(Refused::InvalidId));
        assert_eq!(Sending::response(&server, id, Asked::Other), Err(Refused::InvalidId));
    }
    assert_eq!(Sending::request(&server, 0), Err(Refused::InvalidId));
    assert_eq!(Sending::response(&client, 0, Asked::Other), Err(Refused::InvalidId));
    assert!(Sending::request(&client, 4).is_ok());
    let mut leaving = connection(Endpoint { datagrams: false, ..Endpoint::client(LIMITS) });
    read_control(&mut leaving, 3, b"\x00\x04\x00\x07\x01\x08");
    assert_eq!(Sending::request(&leaving, 4), Err(Refused::GoAway));
    for ended in [&mut client, &mut server, &mut leaving] {
        assert!(ended.stopped(Purpose::Encoder).is_some());
    }
    assert_eq!(Sending::request(&client, 4), Err(Refused::Over));
    assert_eq!(Sending::request(&leaving, 4), Err(Refused::Over));
    assert_eq!(Sending::response(&server, 0, Asked::Other), Err(Refused::Over));
}

#[test]
fn settings_come_first_and_once_and_goaway_never_rises() {
    let settings = Settings::new()
        .set(SettingId::H3_DATAGRAM, 1)
        .set(SettingId::MAX_FIELD_SECTION_SIZE, 64)
        .set(SettingId::new(0x14e9_cd29), 1);
    let (mut control, mut out) = (ControlSending::new(&server()), Vec::new());
    let refused = |error| Err(Refused::Send(error));
    let goaway = |control: &mut ControlSending, id, wanted: Result<(), Refused>| {
        let (before, mut out) = (control.clone(), Vec::new());
        assert_eq!(control.goaway(id, &mut out), wanted);
        assert!(wanted.is_ok() || (out.is_empty() && *control == before));
        out
    };
    goaway(&mut control, 0, refused(SendError::Unexpected));
    assert_eq!(control.settings(&settings, &mut out), Ok(()));
    assert_eq!(out, b"\x00\x04\x0a\x33\x01\x06\x40\x40\x94\xe9\xcd\x29\x01");
    assert_eq!(control.settings(&settings, &mut out), refused(SendError::Unexpected));
    assert_eq!((out.len(), control.last_goaway()), (13, None));
    let out = goaway(&mut control, Goaway::LARGEST, Ok(()));
    assert_eq!(out, b"\x07\x08\xff\xff\xff\xff\xff\xff\xff\xfc");
    for (id, wanted) in [
        (6, refused(SendError::InvalidId)),
        (1 << 62, refused(SendError::InvalidId)),
        (8, Ok(())),
        (8, Ok(())),
        (12, refused(SendError::IdRises)),
        (0, Ok(())),
        (4, refused(SendError::IdRises)),
    ] {
        goaway(&mut control, id, wanted);
    }
    assert_eq!(control.last_goaway(), Some(0));
}

#[test]
fn settings_that_a_peer_refuses_are_not_sent() {
    let client = connection(Endpoint::client(LIMITS));
    let (mut control, mut out) = (ControlSending::new(&client), Vec::new());
    let before = control.clone();
    let refused = |error| Err(Refused::Send(error));
    for (id, value) in [(0x02, 1), (0x21, 1 << 62), (1 << 62, 0)] {
        let settings = Settings::new().set(SettingId::new(id), value);
        assert_eq!(control.settings(&settings, &mut out), refused(SendError::InvalidSettings));
    }
    let many =
        (0..500).fold(Settings::new(), |all, n| all.set(SettingId::new(0x21 + 0x1f * n), 1 << 61));
    assert_eq!(control.settings(&many, &mut out), refused(SendError::TooLarge));
    assert!(control == before && out.is_empty());
    assert_eq!(control.settings(&Settings::new(), &mut out), Ok(()));
    assert_eq!(out, b"\x00\x04\x00");
    // at a client GOAWAY names a push
    assert_eq!(control.goaway(1, &mut out), Ok(()));
    assert_eq!(control.goaway(2, &mut out), refused(SendError::IdRises));
}

#[test]
fn fields_of_messages() {
    let mut response = SessionResponse::ok();
    response.add(b"set-cookie", b"a=1");
    response.add(b"set-cookie", b"b=2");
    let wanted =
        ":status 200\nsec-webtransport-http3-draft draft02\nset-cookie a=1\nset-cookie b=2";
    assert_eq!(response.fields(), list(wanted));
    assert!(SessionRequest::new("http://a/").fields().is_err());
    // content is a DATA frame with its bytes, or nothing
    let (mut sending, mut out) = (self::response(&server(), 0, Asked::Other), Vec::new());
    assert_eq!(sending.content(b"a", &mut out), Err(Refused::Send(SendError::Unexpected)));
    sending.headers(&list(":status 200"), &mut Vec::new()).unwrap();
    sending.content(b"", &mut out).unwrap();
    sending.content(b"abc", &mut out).unwrap();
    assert_eq!((sending.owed(), &out[..]), (0, &b"\x00\x03abc"[..]));
}
