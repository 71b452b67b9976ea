//! The settings of the peer, connections that resume a session, GOAWAY, and requests that are reset: the rows
//! of `c/tests/connection_peer.c` (RFC 9114, sections 5.2, 7.2.4.2, 7.2.6 and 10.5; RFC 9204, section 3.2.3;
//! RFC 9297, section 2.1.1).
mod support;

use support::LIMITS;
use vesgrauf::budget::RequestBudget;
use vesgrauf::error::{Code, WriteError};
use vesgrauf::goaway::Goaway;
use vesgrauf::settings::PeerSettings;
use vesgrauf::{Connection, Endpoint, Event, Side};

/// The control stream of Chromium 156.
const CHROMIUM: &[u8] = b"\x00\x04\x32\x01\x80\x01\x00\x00\x06\x80\x00\x40\x00\x07\x40\x64\
    \x33\x01\x80\xff\xd2\x77\x01\xab\x60\x37\x42\x01\xc0\x00\x00\x00\
    \xc6\x71\x70\x6a\x10\xc0\x00\x00\x18\x89\xc2\x49\xb7\xc0\x00\x00\
    \x00\xb6\x10\xa4\xb3\xc0\x00\x00\x14\x8d\x8f\xcb\xdc\x01\xcd";

/// Each setting with a name, and a reserved one.
const ALL: &[u8] = b"\x00\x04\x1f\x01\x0a\x06\x0b\x07\x0c\x08\x01\x33\x01\
    \xab\x60\x37\x42\x01\xc0\x00\x00\x00\xc6\x71\x70\x6a\x0d\x94\xe9\xcd\x29\x0e\x21\x0f";

/// Reads the peer's control stream. Returns the code of the error that ends the connection.
fn read(connection: &mut Connection, id: u64, mut bytes: &[u8]) -> Option<Code> {
    let mut stream = connection.accept(id);
    loop {
        let received = connection.receive(&mut stream, bytes, false);
        bytes = &bytes[received.consumed..];
        match received.event {
            Event::More => return None,
            Event::ConnectionError(code) => return Some(code),
            Event::Opened(_) | Event::Settings(_) | Event::GoAway(_) => {}
            event => panic!("{event:?}"),
        }
    }
}

fn client() -> Connection {
    Connection::new(Endpoint::client(LIMITS)).unwrap()
}

#[test]
fn settings_of_the_peer() {
    let mut server = Connection::new(Endpoint::server(LIMITS)).unwrap();
    assert_eq!(server.settings(), PeerSettings::default());
    assert_eq!(server.settings().max_field_section_size, None);
    assert_eq!(read(&mut server, 2, CHROMIUM), None);
    let chromium = PeerSettings {
        qpack_max_table_capacity: 65_536,
        max_field_section_size: Some(16_384),
        qpack_blocked_streams: 100,
        enable_connect_protocol: false,
        h3_datagram: true,
        enable_webtransport: true,
        webtransport_max_sessions: 16,
        wt_max_sessions: 0,
        came: true,
    };
    assert_eq!(server.settings(), chromium);
    let mut client = client();
    assert_eq!(read(&mut client, 3, ALL), None);
    let all = PeerSettings {
        qpack_max_table_capacity: 10,
        max_field_section_size: Some(11),
        qpack_blocked_streams: 12,
        enable_connect_protocol: true,
        h3_datagram: true,
        enable_webtransport: true,
        webtransport_max_sessions: 13,
        wt_max_sessions: 14,
        came: true,
    };
    assert_eq!(client.settings(), all);
    let resumed = Connection::resuming(Endpoint::client(LIMITS), &all).unwrap();
    assert_eq!(resumed.settings(), PeerSettings { came: false, ..all });
}

/// The SETTINGS of a session, those of the one that resumes it, and the code of the error.
const RESUMED: &[(&[u8], &[u8], Option<Code>)] = &[
    (b"\x00", b"\x00", None),
    (b"\x06\x01\x09\x06\x09\x33\x01", b"\x06\x33\x01\x06\x09\x01\x09", None),
    (b"\x02\x06\x09", b"\x02\x06\x0a", None),
    (b"\x02\x06\x09", b"\x02\x06\x08", Some(Code::H3_SETTINGS_ERROR)),
    (b"\x02\x06\x09", b"\x00", Some(Code::H3_SETTINGS_ERROR)),
    (b"\x00", b"\x02\x06\x09", Some(Code::H3_SETTINGS_ERROR)),
    (b"\x02\x07\x09", b"\x02\x07\x08", Some(Code::H3_SETTINGS_ERROR)),
    (b"\x02\x33\x01", b"\x02\x33\x00", Some(Code::H3_SETTINGS_ERROR)),
    (b"\x02\x08\x01", b"\x00", Some(Code::H3_SETTINGS_ERROR)),
    (b"\x02\x08\x00", b"\x02\x08\x01", None),
    (b"\x05\xab\x60\x37\x42\x01", b"\x00", Some(Code::H3_SETTINGS_ERROR)),
    (b"\x05\x94\xe9\xcd\x29\x02", b"\x05\x94\xe9\xcd\x29\x01", Some(Code::H3_SETTINGS_ERROR)),
    (b"\x02\x01\x09", b"\x02\x01\x0a", Some(Code::QPACK_DECODER_STREAM_ERROR)),
    (b"\x02\x01\x00", b"\x02\x01\x09", None),
];

#[test]
fn resumed_sessions_keep_their_settings() {
    for (first, second, code) in RESUMED {
        let control = |settings: &[u8]| [b"\x00\x04", settings].concat();
        let (first, second) = (control(first), control(second));
        let mut connection = client();
        assert_eq!(read(&mut connection, 3, &first), None);
        let kept = connection.settings();
        assert!(kept.came);
        let resumed = || Connection::resuming(Endpoint::client(LIMITS), &kept).unwrap();
        let mut connection = resumed();
        assert_eq!(connection.settings(), PeerSettings { came: false, ..kept });
        assert!(!connection.allows_sessions());
        assert_eq!(read(&mut connection, 3, &second), *code, "{first:x?} {second:x?}");
        // the server did not accept early data
        let mut connection = resumed();
        connection.early_data_refused();
        assert_eq!(connection.settings(), PeerSettings::default());
        assert_eq!(read(&mut connection, 3, &second), None);
        let settings = connection.settings();
        connection.early_data_refused();
        assert!(settings.came && connection.settings() == settings);
    }
}

#[test]
fn what_is_not_remembered_need_not_be_kept() {
    // a ticket that came before SETTINGS: the defaults apply, and no limit of fields is remembered
    let unknown = client().settings();
    let mut connection = Connection::resuming(Endpoint::client(LIMITS), &unknown).unwrap();
    assert_eq!(read(&mut connection, 3, b"\x00\x04\x02\x06\x09"), None);
    // a server remembers nothing
    let kept = PeerSettings { h3_datagram: true, came: true, ..PeerSettings::default() };
    let server = Connection::resuming(Endpoint::server(LIMITS), &kept).unwrap();
    assert_eq!(server.settings(), PeerSettings::default());
    // a number is none of QUIC's
    for limit in [1 << 62, u64::MAX] {
        let kept = PeerSettings { max_field_section_size: Some(limit), ..kept };
        assert!(Connection::resuming(Endpoint::client(LIMITS), &kept).is_err());
        let kept = PeerSettings { qpack_blocked_streams: limit, ..kept };
        assert!(Connection::resuming(Endpoint::client(LIMITS), &kept).is_err());
    }
}

#[test]
fn goaway_never_rises() {
    let (mut goaway, mut out) = (Goaway::new(Side::Server), b"before".to_vec());
    for id in [1, 2, 3, 5, 1 << 62, u64::MAX] {
        assert_eq!(goaway.write(id, &mut out), Err(WriteError::Invalid));
    }
    assert_eq!((goaway.last(), &out[..]), (None, &b"before"[..]));
    goaway.write(Goaway::LARGEST, &mut out).unwrap();
    assert_eq!(out, b"before\x07\x08\xff\xff\xff\xff\xff\xff\xff\xfc");
    out.clear();
    for (id, answer) in [(4, Ok(())), (8, Err(WriteError::Invalid)), (4, Ok(())), (0, Ok(()))] {
        assert_eq!(goaway.write(id, &mut out), answer);
    }
    assert_eq!((goaway.last(), &out[..]), (Some(0), &b"\x07\x01\x04\x07\x01\x04\x07\x01\x00"[..]));
    let mut goaway = Goaway::new(Side::Client);
    assert_eq!(goaway.write(1 << 62, &mut out), Err(WriteError::Invalid));
    assert_eq!(goaway.write(5, &mut out), Ok(()));
    assert_eq!(goaway.write(6, &mut out), Err(WriteError::Invalid));
    assert_eq!(goaway.last(), Some(5));
}

#[test]
fn a_client_reads_goaway() {
    let mut bytes = b"\x00\x04\x00".to_vec();
    Goaway::new(Side::Server).write(8, &mut bytes).unwrap();
    let mut connection = client();
    assert_eq!(read(&mut connection, 3, &bytes), None);
    assert!(!connection.is_unprocessed(4) && connection.is_unprocessed(8));
}

#[test]
fn budgets_of_requests() {
    // answers, and then resets that may be, of which the next one is too many
    for (excess, answers, resets) in
        [(100, 0, 100), (100, 1, 101), (3, 150, 153), (0, 0, 0), (0, 2, 2)]
    {
        let mut budget = RequestBudget::with_excess(excess);
        (0..answers).for_each(|_| budget.answered());
        assert!((0..resets).all(|_| budget.reset_unanswered().is_none()));
        assert_eq!(budget.reset_unanswered(), Some(Code::H3_EXCESSIVE_LOAD));
        let same = budget.clone();
        budget.answered();
        assert_eq!(budget.reset_unanswered(), Some(Code::H3_EXCESSIVE_LOAD));
        assert_eq!(budget, same);
    }
    assert_eq!(RequestBudget::new(), RequestBudget::with_excess(100));
}
