//! Bytes of real browsers and servers (`tools/recordings.d`), compared with what these say of them and with
//! what an independent reader found, by `index.tsv`; whole, cut, and with wrong bytes.
mod support;

use std::collections::BTreeSet;
use std::fs;
use std::path::PathBuf;
use support::json::Json;
use support::{times, Player, Random, LIMITS};
use vesgrauf::capsule::{CapsuleCursor, CapsuleStep, CloseWebTransportSession};
use vesgrauf::datagram::Datagram;
use vesgrauf::error::{Code, ReadError};
use vesgrauf::fields::FieldList;
use vesgrauf::frame::{CursorStep, FrameCursor, FrameKind, StreamRole};
use vesgrauf::settings::Settings;
use vesgrauf::stream_header::{StreamHeader, StreamKind};
use vesgrauf::{Asked, Endpoint, Stream};

fn folder() -> PathBuf {
    PathBuf::from(env!("CARGO_MANIFEST_DIR")).join("../../tools/recordings.d")
}

fn recorded(name: &str) -> Vec<u8> {
    fs::read(folder().join(name)).unwrap()
}

/// A line of the index.
struct Row {
    name: String,
    direction: String,
    stream: Option<u64>,
    kind: String,
    fin: bool,
    bytes: Vec<u8>,
    said: Vec<Json>,
    read: Vec<Json>,
}

fn rows() -> Vec<Row> {
    let index = fs::read_to_string(folder().join("index.tsv")).unwrap();
    let rows: Vec<_> = index.lines().skip(1).map(row).collect();
    assert!(rows.len() > 50);
    rows
}

fn row(line: &str) -> Row {
    let cells: Vec<_> = line.split('\t').collect();
    let json = |cell: &str| match cell {
        "" => Vec::new(),
        cell => Json::read(cell).list().to_vec(),
    };
    Row {
        name: cells[0].into(),
        direction: cells[2].into(),
        stream: cells[3].strip_prefix("stream ").map(|id| id.parse().unwrap()),
        kind: cells[4].into(),
        fin: cells[5] == "fin",
        bytes: recorded(cells[0]),
        said: json(cells[7]),
        read: json(cells[8]),
    }
}

/// Returns whether bytes are those of a text of the index, in which some stacks have a character for each
/// byte.
fn is_text(bytes: &[u8], text: &str) -> bool {
    bytes == text.as_bytes() || bytes.iter().map(|byte| *byte as char).eq(text.chars())
}

/// The frames of a stream with their payloads, what is left without a fault, and a fault.
type Frames = (Vec<(FrameKind, Vec<u8>)>, Vec<u8>, Option<Code>);

/// Returns the sizes of pieces.
fn sizes(pieces: &[&[u8]]) -> Vec<usize> {
    pieces.iter().map(|piece| piece.len()).collect()
}

/// Reads the frames of a stream that comes in these pieces.
fn frames(role: StreamRole, pieces: &[&[u8]]) -> Frames {
    let (mut cursor, mut found, mut held) = (FrameCursor::new(role), Vec::new(), Vec::new());
    for (at, piece) in pieces.iter().enumerate() {
        held.extend_from_slice(piece);
        loop {
            match cursor.next(&held) {
                CursorStep::Frame(frame) => {
                    found.push((frame.kind, frame.payload(&held).to_vec()));
                    held.drain(..frame.end);
                    if frame.kind == FrameKind::WebTransport {
                        held.extend(pieces[at + 1..].concat());
                        return (found, held, None);
                    }
                }
                CursorStep::More(consumed) => {
                    held.drain(..consumed);
                    assert!(held.len() <= FrameCursor::MAX_REST);
                    break;
                }
                CursorStep::Fault(code) => return (found, Vec::new(), Some(code)),
            }
        }
    }
    (found, held, None)
}

/// Checks the frames of a stream, whole and cut, and their field sections. Returns them.
fn check_frames(row: &Row, role: StreamRole, bytes: &[u8], said: &[Json], read: &[Json]) -> Frames {
    let whole = frames(role, &[bytes]);
    let mut random = Random(7);
    for _ in 0..times(20) {
        let pieces = random.pieces(bytes);
        assert!(frames(role, &pieces) == whole, "{} in {:?}", row.name, sizes(&pieces));
    }
    let mut wanted: Vec<(String, usize)> = Vec::new();
    let mut fault = None;
    for (name, size) in read.iter().map(Json::first) {
        let name = name.split(' ').next().unwrap();
        if !["DATA", "HEADERS", "SETTINGS", "reserved"].contains(&name) {
            continue;
        }
        if size.number() > FrameCursor::MAX_PAYLOAD {
            fault = Some(Code::H3_EXCESSIVE_LOAD);
            break;
        }
        wanted.push((name.into(), size.number()));
    }
    let name = |kind: &FrameKind| match kind {
        FrameKind::Exercise(_) => "reserved".to_string(),
        kind => format!("{kind:?}").to_uppercase(),
    };
    let found: Vec<_> = whole.0.iter().map(|(kind, payload)| (name(kind), payload.len())).collect();
    assert_eq!((found, whole.2), (wanted, fault), "{}", row.name);
    let sections = whole.0.iter().filter(|(kind, _)| *kind == FrameKind::Headers);
    let lists = said.iter().filter_map(|item| item.get("HEADERS"));
    for ((_, section), lines) in sections.zip(lists.filter(|list| matches!(list, Json::List(_)))) {
        check_section(row, section, lines.list());
    }
    whole
}

fn check_section(row: &Row, section: &[u8], lines: &[Json]) {
    match FieldList::decode(section) {
        Ok(list) => {
            assert_eq!(list.len(), lines.len(), "{}", row.name);
            for ((name, value), pair) in list.iter().zip(lines) {
                assert!(is_text(name, pair.list()[0].text()), "{}: {pair:?}", row.name);
                assert!(is_text(value, pair.list()[1].text()), "{}: {pair:?}", row.name);
            }
        }
        // it needs the dynamic table
        Err(error) => {
            assert_eq!(error, ReadError::Fault(Code::QPACK_DECOMPRESSION_FAILED), "{}", row.name);
            assert!(section[0] != 0 || section[1] & 0x80 != 0, "{}", row.name);
        }
    }
}

/// Reads the capsules that close a session, in data that comes in these pieces.
fn closes(pieces: &[&[u8]]) -> (Vec<CloseWebTransportSession>, Result<(), Code>) {
    let (mut cursor, mut found, mut held) = (CapsuleCursor::new(), Vec::new(), Vec::new());
    for piece in pieces {
        held.extend_from_slice(piece);
        loop {
            match cursor.next(&held) {
                CapsuleStep::Capsule(capsule) => {
                    let close = CloseWebTransportSession::with_value(capsule.value(&held));
                    found.push(close.unwrap());
                    held.drain(..capsule.end);
                }
                CapsuleStep::More(consumed) => {
                    held.drain(..consumed);
                    break;
                }
                CapsuleStep::Fault(code) => return (found, Err(code)),
            }
        }
    }
    (found, cursor.finish(&held))
}

fn check_capsules(row: &Row, frames: &Frames) -> usize {
    let data = frames.0.iter().filter(|(kind, _)| *kind == FrameKind::Data);
    let data: Vec<u8> = data.flat_map(|(_, payload)| payload.clone()).collect();
    let mut random = Random(3);
    let listed: Vec<_> = row.read.iter().filter_map(|item| item.get("capsules")).collect();
    for capsules in &listed {
        let capsules = capsules.list();
        let is_cut = capsules.iter().any(|capsule| matches!(capsule, Json::Text(_)));
        let wanted = capsules.iter().filter(|capsule| match capsule {
            Json::List(parts) => parts[0].text() == "CLOSE_WEBTRANSPORT_SESSION",
            _ => false,
        });
        let wanted: Vec<_> = wanted.map(|capsule| &capsule.list()[1..]).collect();
        for _ in 0..times(50) {
            let (found, ending) = closes(&random.pieces(&data));
            assert_eq!(ending.err(), is_cut.then_some(Code::H3_MESSAGE_ERROR), "{}", row.name);
            assert_eq!(found.len(), wanted.len(), "{}", row.name);
            for (close, wanted) in found.iter().zip(&wanted) {
                assert_eq!(close.error_code() as usize, wanted[0].number());
                assert!(is_text(close.reason().as_bytes(), wanted[1].text()));
            }
        }
    }
    listed.len()
}

fn check_one_way(row: &Row) {
    let what = row.read[0].get("stream").unwrap().text();
    let header = StreamHeader::read(&row.bytes);
    if what == "push" || what.starts_with("unknown") {
        assert_eq!(header, Err(Code::H3_STREAM_CREATION_ERROR), "{}", row.name);
        return;
    }
    let (header, size) = header.unwrap().unwrap();
    match header.kind() {
        StreamKind::WebTransport => {
            let session = row.read[0].get("session").unwrap().number();
            assert_eq!(header.session_id(), Some(session as u64), "{}", row.name);
            let payload = row.read[0].get("bytes").unwrap().number();
            assert_eq!(row.bytes.len() - size, payload, "{}", row.name);
        }
        StreamKind::Control => {
            let bytes = &row.bytes[size..];
            let frames = check_frames(row, StreamRole::UniRemote, bytes, &row.said, &row.read[1..]);
            let settings = Settings::read(&frames.0[0].1).unwrap();
            let wanted = row.read[1].get("is").unwrap().list().iter().map(|pair| {
                let id = pair.list()[0].text().trim_start_matches("0x");
                (u64::from_str_radix(id, 16).unwrap(), pair.list()[1].number() as f64)
            });
            // the reader of JSON keeps 53 bits of a number
            let found = settings.iter().map(|(id, value)| (id.id(), value as f64));
            assert!(found.eq(wanted), "{}: {settings:?}", row.name);
        }
        kind => assert!(what.starts_with("QPACK") || what.starts_with("reserved"), "{kind:?}"),
    }
}

#[test]
fn streams_and_datagrams_are_those_of_the_index() {
    let mut kinds = BTreeSet::new();
    let mut capsules = 0;
    for row in rows() {
        let first = row.kind.split([' ', ':', ',']).next().unwrap().to_string();
        match first.as_str() {
            "datagram" => {
                let datagram = Datagram::read(&row.bytes).unwrap();
                let wanted = |name| row.read[0].get(name).unwrap().number();
                assert_eq!(datagram.session_id() as usize, 4 * wanted("quarter stream id"));
                assert_eq!(datagram.payload().len(), wanted("bytes"));
            }
            "unidirectional" => check_one_way(&row),
            "WebTransport" if row.kind.contains("opened by this") => {
                let (found, rest, fault) = frames(StreamRole::BiRemote, &[&row.bytes]);
                assert_eq!((found[0].0, fault), (FrameKind::WebTransport, None));
                let wanted = row.read[0].get("application bytes").unwrap().number();
                assert_eq!(rest.len(), wanted, "{}", row.name);
            }
            "session" | "request" => {
                let role = StreamRole::BiRemote;
                let frames = check_frames(&row, role, &row.bytes, &row.said, &row.read);
                capsules += check_capsules(&row, &frames);
            }
            "response" => {
                check_frames(&row, StreamRole::BiLocal, &row.bytes, &row.said, &row.read);
            }
            _ => continue,
        }
        kinds.insert(first);
    }
    assert_eq!(kinds.len(), 6);
    assert!(capsules > 0);
}

/// Begins the stream of a row at the end that received it.
fn begin(player: &mut Player, row: &Row) -> u64 {
    let id = row.stream.unwrap();
    let own = (id & 1 == 1) == (row.direction == "c2s");
    match own {
        false => player.accept(id),
        true if row.kind.starts_with("WebTransport") => player.add(id, Stream::of_session(0)),
        true => {
            let stream = player.connection.open(Asked::Other);
            player.add(id, stream);
        }
    }
    id
}

/// Returns the events of a stream alone at the end that received it, in these pieces. `pushes`: each piece
/// comes once.
fn play(row: &Row, pieces: &[&[u8]], pushes: bool) -> String {
    let endpoint = match row.direction.as_str() {
        "c2s" => Endpoint::server(LIMITS),
        _ => Endpoint::client(LIMITS),
    };
    let mut player = Player::new(endpoint, 200);
    player.pushes = pushes;
    let control = [&b"\x00\x04\x07\xab\x60\x37\x42\x01\x33\x01"[..]];
    if !row.kind.contains("control") {
        let id = if row.direction == "c2s" { 2 } else { 3 };
        player.accept(id);
        player.play(id, &control, false);
    }
    let id = begin(&mut player, row);
    player.play(id, pieces, row.fin);
    player.text(id)
}

#[test]
fn cuts_make_no_difference() {
    let mut random = Random(11);
    for row in rows().iter().filter(|row| row.stream.is_some()) {
        let whole = play(row, &[&row.bytes], false);
        assert_eq!(play(row, &[&row.bytes], true), whole, "{}", row.name);
        for turn in 0..times(20) {
            let pieces = random.pieces(&row.bytes);
            let played = play(row, &pieces, turn % 2 == 0);
            assert_eq!(played, whole, "{} in {:?}", row.name, sizes(&pieces));
        }
    }
}

#[test]
fn cuts_of_wrong_bytes_make_no_difference() {
    let mut random = Random(13);
    let mut faults = BTreeSet::new();
    let rows = rows();
    let rows: Vec<_> = rows.iter().filter(|row| row.stream.is_some()).collect();
    for _ in 0..times(2_000) {
        let row = rows[random.below(rows.len())];
        let mut bytes = row.bytes.clone();
        for _ in 0..=random.below(3) {
            let at = random.below(bytes.len().min(200));
            bytes[at] = random.below(256) as u8;
        }
        let whole = play(row, &[&bytes], false);
        let pieces = random.pieces(&bytes);
        for pushes in [false, true] {
            let played = play(row, &pieces, pushes);
            assert_eq!(played, whole, "{}: {bytes:x?} in {:?}", row.name, sizes(&pieces));
        }
        faults
            .insert(whole.rsplit("; ").nth(1).unwrap_or("").split('{').next().unwrap().to_string());
    }
    let errors = faults.iter().filter(|event| event.contains("Error"));
    assert!(errors.count() > 3, "{faults:?}");
}

/// What a server receives in the session of Chromium that is recorded: each stream, and its events.
const CHROMIUM: &[(u64, &str, bool, &str)] = &[
    (2, "chr07-0-c2s-2.bin", false, "Settings"),
    (10, "chr07-0-c2s-10.bin", false, ""),
    (0, "chr07-0-c2s-0.bin", true, "SessionRequested"),
    (1, "chr07-0-c2s-1.bin", true, "data 29; End; "),
    (4, "chr07-0-c2s-4.bin", true, "Joined(0); data 20; End; "),
    (14, "chr07-0-c2s-14.bin", true, "Joined(0); data 13; End; "),
    (18, "chr07-0-c2s-18.bin", true, "Joined(0); End; "),
];

/// The size of the HEADERS frame of the request: 131 bytes, by the index, after three.
const REQUEST_SIZE: usize = 134;

/// Plays the session with its streams cut and mixed at random, and returns the events of each.
fn play_session(random: &mut Random) -> Vec<String> {
    let mut player = Player::new(Endpoint::server(LIMITS), 200);
    player.pushes = random.below(2) == 1;
    let files: Vec<_> = CHROMIUM.iter().map(|row| recorded(row.1)).collect();
    let mut pieces: Vec<_> = files.iter().map(|bytes| random.pieces(bytes)).collect();
    // its request, and what closes it
    let (request, end) = files[2].split_at(REQUEST_SIZE);
    let end = random.pieces(end);
    let end_len = end.len();
    pieces[2] = random.pieces(request);
    pieces[2].extend(end);
    let mut rest: Vec<_> = pieces.into_iter().map(Vec::into_iter).collect();
    for (id, ..) in CHROMIUM {
        match id {
            1 => player.add(1, Stream::of_session(0)),
            _ => player.accept(*id),
        }
    }
    let mut open: Vec<usize> = (0..CHROMIUM.len()).collect();
    while !open.is_empty() {
        let place = random.below(open.len());
        let at = open[place];
        let (id, _, fin, _) = CHROMIUM[at];
        // the session ends, and its streams with it, when all of them were read
        if id == 0 && open.len() > 1 && rest[at].len() <= end_len {
            continue;
        }
        match rest[at].next() {
            Some(piece) => player.receive(id, piece, false),
            None => {
                if fin {
                    player.receive(id, b"", true);
                }
                open.swap_remove(place);
            }
        }
    }
    CHROMIUM.iter().map(|(id, ..)| player.text(*id)).collect()
}

#[test]
fn a_session_of_chromium_in_any_order() {
    let mut random = Random(17);
    for _ in 0..times(300) {
        for (text, (id, _, _, wanted)) in play_session(&mut random).iter().zip(CHROMIUM) {
            match id {
                0 => {
                    assert!(text.starts_with("SessionRequested({"), "{text}");
                    assert!(text.contains("\":path\": \"/chat?room=1&x=%C3%A9\""), "{text}");
                    let close = "Close { code: 4660, reason: \"bye, wörld\" }";
                    assert!(text.ends_with(&format!("SessionClosed({close}); End; ")), "{text}");
                }
                2 => assert!(text.starts_with(wanted), "{text}"),
                _ => assert_eq!(text, wanted, "{id}"),
            }
        }
    }
}
