//! The codec by rows of the standards: RFC 9000, appendix A.1; RFC 9114, sections 6.2 and 7; RFC 9204,
//! appendix B; RFC 9297; draft-ietf-webtrans-http3-02. They are those of `c/tests`.
mod support;

use support::{times, Random};
use vesgrauf::capsule::{CapsuleCursor, CapsuleStep, CloseWebTransportSession};
use vesgrauf::datagram::Datagram;
use vesgrauf::error::{application_codes, Code, ErrorScope, ReadError, WriteError};
use vesgrauf::fields::FieldList;
use vesgrauf::frame::{
    write_frame, write_head, write_webtransport, CursorStep, FrameCursor, FrameKind, StreamRole,
};
use vesgrauf::session::{HeadersParseError, RequestTarget, SessionRequest, SessionResponse};
use vesgrauf::settings::{SettingId, Settings};
use vesgrauf::stream_header::{StreamHeader, StreamKind};
use vesgrauf::varint::{first_varint, varint_size, write_varint};

/// Returns what a call appends, after what there was.
fn written(write: impl Fn(&mut Vec<u8>) -> Result<(), WriteError>) -> Result<Vec<u8>, WriteError> {
    let mut out = b"before".to_vec();
    let result = write(&mut out);
    assert!(out.starts_with(b"before"));
    let after = out.split_off(6);
    assert!(result.is_ok() || after.is_empty());
    result.map(|()| after)
}

#[test]
fn numbers() {
    let rows: &[(&[u8], u64, usize)] = &[
        (b"\xc2\x19\x7c\x5e\xff\x14\xe8\x8c", 151_288_809_941_952_652, 8),
        (b"\x9d\x7f\x3e\x7d", 494_878_333, 4),
        (b"\x7b\xbd", 15_293, 2),
        (b"\x25", 37, 1),
        (b"\x40\x25", 37, 2),
    ];
    for (bytes, value, size) in rows {
        assert_eq!(first_varint(bytes), Some((*value, *size)));
        assert_eq!(first_varint(&bytes[..size - 1]), None);
        let shortest = written(|out| write_varint(*value, out)).unwrap();
        assert_eq!(varint_size(*value), Some(shortest.len()));
        assert_eq!(first_varint(&shortest), Some((*value, shortest.len())));
        assert!(shortest.len() < *size || shortest == *bytes);
    }
    assert_eq!(written(|out| write_varint(1 << 62, out)), Err(WriteError::Invalid));
    assert_eq!((varint_size(1 << 62), varint_size((1 << 62) - 1)), (None, Some(8)));
}

#[test]
fn stream_headers() {
    let rows = [
        (StreamHeader::new_control(), &b"\x00"[..]),
        (StreamHeader::new(StreamKind::QPackEncoder), b"\x02"),
        (StreamHeader::new(StreamKind::QPackDecoder), b"\x03"),
        (StreamHeader::new_webtransport(4), b"\x40\x54\x04"),
        (StreamHeader::new(StreamKind::Exercise(0x21)), b"\x21"),
    ];
    for (header, bytes) in rows {
        assert_eq!(written(|out| header.write(out)).unwrap(), bytes);
        assert_eq!(StreamHeader::read(bytes), Ok(Some((header, bytes.len()))));
        assert_eq!(StreamHeader::read(&bytes[..bytes.len() - 1]), Ok(None));
    }
    assert_eq!(StreamHeader::read(b"\x01"), Err(Code::H3_STREAM_CREATION_ERROR));
    assert_eq!(StreamHeader::read(b"\x40\x54\x05"), Err(Code::H3_ID_ERROR));
    for wrong in [StreamHeader::new_webtransport(6), StreamHeader::new(StreamKind::Exercise(7))] {
        assert_eq!(written(|out| wrong.write(out)), Err(WriteError::Invalid));
    }
}

#[test]
fn datagrams() {
    let datagram = Datagram::new(8, b"hi");
    assert_eq!(written(|out| datagram.write(out)).unwrap(), b"\x02hi");
    assert_eq!(written(|out| Datagram::write_head(256, out)).unwrap(), b"\x40\x40");
    assert_eq!(Datagram::read(b"\x02hi"), Ok(datagram));
    assert_eq!(Datagram::read(b"\x02").unwrap().payload(), b"");
    assert_eq!(Datagram::read(b""), Err(Code::H3_DATAGRAM_ERROR));
    // a quarter stream ID of 2^60 (RFC 9297, section 2.1)
    assert_eq!(Datagram::read(b"\xd0\0\0\0\0\0\0\0"), Err(Code::H3_DATAGRAM_ERROR));
    assert_eq!(written(|out| Datagram::new(1, b"").write(out)), Err(WriteError::Invalid));
}

#[test]
fn frames() {
    let rows: &[(FrameKind, &[u8], &[u8])] = &[
        (FrameKind::Data, b"hello", b"\x00\x05hello"),
        (FrameKind::Headers, b"\x00\x00", b"\x01\x02\x00\x00"),
        (FrameKind::Settings, b"\x33\x01", b"\x04\x02\x33\x01"),
        (FrameKind::Exercise(0x21), b"x", b"\x21\x01x"),
        (FrameKind::Exercise(0x40), b"x", b"\x40\x40\x01x"),
        (FrameKind::Data, b"", b"\x00\x00"),
    ];
    for (kind, payload, bytes) in rows {
        assert_eq!(written(|out| write_frame(*kind, payload, out)).unwrap(), *bytes);
        let head = &bytes[..bytes.len() - payload.len()];
        assert_eq!(written(|out| write_head(*kind, payload.len() as u64, out)).unwrap(), head);
    }
    // reserved, since HTTP/2 used it (RFC 9114, section 7.2.8); GOAWAY is no reserved type
    for kind in [FrameKind::WebTransport, FrameKind::Exercise(2), FrameKind::Exercise(7)] {
        assert_eq!(written(|out| write_frame(kind, b"", out)), Err(WriteError::Invalid));
    }
    assert_eq!(written(|out| write_webtransport(4, out)).unwrap(), b"\x40\x41\x04");
    assert_eq!(written(|out| write_webtransport(6, out)), Err(WriteError::Invalid));
}

#[test]
fn frames_that_are_read() {
    let next = |role, bytes: &[u8]| FrameCursor::new(role).next(bytes);
    let mut cursor = FrameCursor::new(StreamRole::BiRemote);
    let bytes = b"\x02\x01x\x00\x03abc\x01"; // 0x02 is unknown here, and skipped
    match cursor.next(bytes) {
        CursorStep::Frame(frame) => {
            assert_eq!((frame.kind, frame.payload(bytes)), (FrameKind::Data, &b"abc"[..]));
            assert_eq!(frame.end, 8);
        }
        step => panic!("{step:?}"),
    }
    assert_eq!(cursor.next(b"\x01"), CursorStep::More(0));
    assert_eq!(cursor.finish(b"\x01"), Err(Code::H3_FRAME_ERROR));
    assert_eq!(cursor.finish(b""), Ok(()));
    match next(StreamRole::BiRemote, b"\x40\x41\x04rest") {
        CursorStep::Frame(frame) => assert_eq!((frame.session_id, frame.end), (Some(4), 3)),
        step => panic!("{step:?}"),
    }
    let faults: &[(StreamRole, &[u8], Code)] = &[
        (StreamRole::BiRemote, b"\x04\x00", Code::H3_FRAME_UNEXPECTED),
        (StreamRole::UniRemote, b"\x00\x00", Code::H3_FRAME_UNEXPECTED),
        (StreamRole::BiRemote, b"\x40\x41\x05", Code::H3_ID_ERROR),
        (StreamRole::BiLocal, b"\x40\x41\x04", Code::H3_FRAME_UNEXPECTED),
        (StreamRole::BiRemote, b"\x00\x50\x01", Code::H3_EXCESSIVE_LOAD),
    ];
    // one of a session that is not the first (draft-ietf-webtrans-http3-02, section 4.2)
    assert!(matches!(cursor.next(b"\x00\x00"), CursorStep::Frame(_)));
    assert_eq!(cursor.next(b"\x40\x41\x04"), CursorStep::Fault(Code::H3_FRAME_ERROR));
    for (role, bytes, code) in faults {
        assert_eq!(next(*role, bytes), CursorStep::Fault(*code), "{bytes:x?}");
    }
}

#[test]
fn capsules() {
    let bytes = b"\x17\x03abc\x00\x01x\x68\x43\x07\x00\x00\x12\x34bye";
    let mut cursor = CapsuleCursor::new();
    match cursor.next(bytes) {
        CapsuleStep::Capsule(capsule) => {
            let close = CloseWebTransportSession::with_value(capsule.value(bytes)).unwrap();
            assert_eq!((close.error_code(), close.reason(), capsule.end), (0x1234, "bye", 18));
            assert_eq!(written(|out| close.write(out)).unwrap(), &bytes[8..]);
        }
        step => panic!("{step:?}"),
    }
    // an unknown one in pieces
    assert_eq!(cursor.next(b"\x17\x03a"), CapsuleStep::More(3));
    assert_eq!(cursor.finish(b""), Err(Code::H3_MESSAGE_ERROR));
    assert_eq!(cursor.next(b"bc"), CapsuleStep::More(2));
    assert_eq!(cursor.finish(b""), Ok(()));
    // a value of 1029 bytes
    assert_eq!(cursor.next(b"\x68\x43\x44\x05"), CapsuleStep::Fault(Code::H3_DATAGRAM_ERROR));
    let longest = "r".repeat(CloseWebTransportSession::MAX_REASON_LEN);
    assert!(written(|out| CloseWebTransportSession::new(1, &longest).write(out)).is_ok());
    let longer = CloseWebTransportSession::new(1, &(longest + "r"));
    assert_eq!(written(|out| longer.write(out)), Err(WriteError::Invalid));
    for wrong in [&b"\0\0\0"[..], b"\0\0\0\0\xff", &[0; 1029]] {
        let read = CloseWebTransportSession::with_value(wrong);
        assert_eq!(read, Err(Code::H3_DATAGRAM_ERROR));
    }
}

#[test]
fn settings() {
    // an unknown identifier, 0x0d, twice, and one reserved for exercise, 0x21
    let payload = b"\x33\x01\x0d\x00\x08\x01\x0d\x05\x21\x40\x40";
    let settings = Settings::read(payload).unwrap();
    let found: Vec<_> = settings.iter().map(|(id, value)| (id.id(), value)).collect();
    assert_eq!(found, [(0x33, 1), (0x0d, 0), (0x08, 1), (0x0d, 5), (0x21, 64)]);
    assert_eq!(written(|out| settings.write(out)).unwrap(), payload);
    assert_eq!(settings.get(SettingId::H3_DATAGRAM), Some(1));
    assert_eq!(settings.get(SettingId::new(0x0d)), Some(0));
    assert_eq!(SettingId::H3_DATAGRAM.name().as_deref(), Some("SETTINGS_H3_DATAGRAM"));
    assert_eq!(SettingId::new(0x0d).name(), None);
    let faults: &[(&[u8], Code)] = &[
        (b"\x33", Code::H3_FRAME_ERROR),
        (b"\x33\x40", Code::H3_FRAME_ERROR),
        (b"\x33\x01\x33\x01", Code::H3_SETTINGS_ERROR),
        (b"\x21\x01\x21\x01", Code::H3_SETTINGS_ERROR),
        (b"\x02\x00", Code::H3_SETTINGS_ERROR),
    ];
    for (payload, code) in faults {
        assert_eq!(Settings::read(payload), Err(ReadError::Fault(*code)));
    }
    for (id, value) in [(4, 1), (0x33, 1 << 62)] {
        let wrong = Settings::new().set(SettingId::new(id), value);
        assert_eq!(written(|out| wrong.write_control_stream(out)), Err(WriteError::Invalid));
    }
    let control = Settings::new().set(SettingId::H3_DATAGRAM, 0).set(SettingId::H3_DATAGRAM, 1);
    let control = written(|out| control.write_control_stream(out)).unwrap();
    assert_eq!(control, b"\x00\x04\x02\x33\x01");
}

#[test]
fn fields() {
    // RFC 9204, appendix B.1: a literal with a reference to the static table
    let section = b"\x00\x00\x51\x0b/index.html";
    let list = FieldList::decode(section).unwrap();
    assert_eq!(list.iter().collect::<Vec<_>>(), [(&b":path"[..], &b"/index.html"[..])]);
    // a value that is not UTF-8 is read, and not written
    let latin = FieldList::decode(b"\x00\x00\xd9\x21x\x01\xe9").unwrap();
    assert_eq!(latin.first(b"x"), Some(&b"\xe9"[..]));
    assert_eq!(written(|out| latin.encode(out)), Err(WriteError::Invalid));
    let code = ReadError::Fault(Code::QPACK_DECOMPRESSION_FAILED);
    for wrong in [&b""[..], b"\x00\x00\xff", b"\x02\x00\x80", b"\x00\x00\x51\x0b/index"] {
        assert_eq!(FieldList::decode(wrong), Err(code));
    }
    // of any size
    let mut random = Random(5);
    for _ in 0..times(200) {
        let mut list = FieldList::new();
        for _ in 0..random.below(60) {
            let text = |random: &mut Random, longest| {
                let size = random.below(longest);
                (0..size).map(|_| b' ' + random.below(95) as u8).collect::<Vec<u8>>()
            };
            let (name, value) = (text(&mut random, 20), text(&mut random, 600));
            list.push(&name, &value);
        }
        let section = written(|out| list.encode(out)).unwrap();
        let read = FieldList::decode(&section).unwrap();
        assert_eq!(read, list);
        assert_eq!((read.len(), read.get(0)), (list.len(), list.get(0)));
        for (name, _) in &list {
            assert_eq!(read.first(name), list.all(name).next());
            assert_eq!(read.last(name), list.all(name).last());
        }
    }
}

/// Returns the section of a HEADERS frame.
fn section(frame: &[u8]) -> &[u8] {
    match FrameCursor::new(StreamRole::BiRemote).next(frame) {
        CursorStep::Frame(found) => found.payload(frame),
        step => panic!("{step:?}"),
    }
}

#[test]
fn requests() {
    let mut request = SessionRequest::new("https://EXAMPLE.com:443/chat?room=1#there");
    request.insert(b"cookie", b"a=1");
    request.insert(b"cookie", b"b=2");
    let frame = written(|out| request.write(out)).unwrap();
    let target = RequestTarget::read(section(&frame)).unwrap();
    assert_eq!(
        (&target.authority[..], &target.path[..]),
        (&b"example.com"[..], &b"/chat?room=1"[..])
    );
    assert_eq!(HeadersParseError::of_request(section(&frame)), Ok(None));
    let fields = FieldList::decode(section(&frame)).unwrap();
    assert_eq!(fields.all(b"cookie").collect::<Vec<_>>(), [b"a=1", b"b=2"]);
    for wrong in ["http://example.com/", "/chat", "https://"] {
        let write = |out: &mut Vec<u8>| SessionRequest::new(wrong).write(out);
        assert_eq!(written(write), Err(WriteError::Invalid));
    }
    for (name, value) in
        [(&b"Name"[..], &b""[..]), (b":path", b"/"), (b"a", b"b\r\n"), (b"a", b" b")]
    {
        let mut request = SessionRequest::new("https://example.com/");
        request.insert(name, value);
        assert_eq!(written(|out| request.write(out)), Err(WriteError::Invalid));
    }
    // :method GET alone (RFC 9220, section 3)
    let get = HeadersParseError::of_request(b"\x00\x00\xd1").unwrap().unwrap();
    assert_eq!(get, HeadersParseError::MethodNotConnect);
    assert_eq!(get.to_string(), "MethodNotConnect");
    let code = RequestTarget::read(b"\x00\x00\xd1").unwrap_err().code();
    assert_eq!(code, Some(Code::H3_MESSAGE_ERROR));
}

#[test]
fn responses() {
    let mut response = SessionResponse::ok();
    response.add(b"server", b"test");
    let frame = written(|out| response.write(out)).unwrap();
    assert_eq!(SessionResponse::read_status(section(&frame)), Ok(200));
    for status in [99, 600] {
        let write = |out: &mut Vec<u8>| SessionResponse::with_status_code(status).write(out);
        assert_eq!(written(write), Err(WriteError::Invalid));
    }
    assert!(SessionResponse::read_status(b"\x00\x00\xd1").is_err());
}

#[test]
fn faults_of_requests_have_their_names() {
    use HeadersParseError::*;
    for fault in [
        MissingMethod,
        MethodNotConnect,
        MissingScheme,
        SchemeNotHttps,
        MissingProtocol,
        ProtocolNotWebTransport,
        MissingAuthority,
        MissingPath,
    ] {
        assert_eq!(fault.to_string(), format!("{fault:?}"));
    }
}

#[test]
fn codes() {
    assert_eq!(Code::H3_FRAME_UNEXPECTED.to_string(), "H3_FRAME_UNEXPECTED (0x105)");
    assert_eq!(Code::new(0x21).to_string(), "0x21");
    assert_eq!(Code::H3_REQUEST_CANCELLED.scope(), Some(ErrorScope::Stream));
    assert_eq!(Code::H3_SETTINGS_ERROR.scope(), Some(ErrorScope::Connection));
    assert_eq!(Code::new(0x21).scope(), None);
    // draft-ietf-webtrans-http3-02, section 4.3
    for (code, number) in [(0, 0x52e4_a40f_a8db), (u32::MAX, 0x52e5_ac98_3162)] {
        assert_eq!(application_codes::to_http3(code).number(), number);
        assert_eq!(application_codes::from_http3(Code::new(number)), Some(code));
    }
    assert_eq!(application_codes::from_http3(Code::H3_NO_ERROR), None);
}
