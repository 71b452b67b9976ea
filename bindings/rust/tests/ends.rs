//! Both ends of a connection, each of this crate: messages, tunnels and sessions whose calls and lengths are
//! random, and whose streams come in random pieces and in a random order. What one end was allowed to send,
//! the other end receives as these events; what was refused changes nothing.
mod support;

use std::collections::BTreeMap;
use support::{flush, tell, times, Events, Player, Random, LIMITS};
use vesgrauf::fields::FieldList;
use vesgrauf::goaway::Goaway;
use vesgrauf::sending::{ControlSending, Refused, SendError, Sending};
use vesgrauf::session::SessionRequest;
use vesgrauf::{Asked, Endpoint, Event, HeadersKind};

/// What was sent on a stream, and the events that the other end is to have.
#[derive(Default)]
struct Sent {
    bytes: Vec<u8>,
    fin: bool,
    events: Events,
}

impl Sent {
    fn expect(&mut self, event: Event<'_>) {
        tell(&mut self.events, &event);
    }

    /// Sends so many bytes of content, which are numbered.
    fn content(&mut self, length: usize) {
        let start = self.events.content.len();
        let piece: Vec<u8> = (start..start + length).map(|place| place as u8).collect();
        self.bytes.extend_from_slice(&piece);
        self.expect(Event::Data(&piece));
    }

    /// The other end is to read that the session is closed.
    fn closes(&mut self, code: u32, reason: &str) {
        flush(&mut self.events);
        let close = format!("SessionClosed(Close {{ code: {code}, reason: {reason:?} }}); ");
        self.events.text += &close;
    }

    fn end(&mut self) {
        self.fin = true;
        self.expect(Event::End);
    }
}

type Send = fn(&mut Sending, &mut Vec<u8>) -> Result<(), Refused>;

/// Makes a call. If it is refused, nothing was appended and nothing changed.
fn attempt<F>(sending: &mut Sending, out: &mut Vec<u8>, call: F) -> Result<(), Refused>
where
    F: Fn(&mut Sending, &mut Vec<u8>) -> Result<(), Refused>,
{
    let (before, length) = (sending.clone(), out.len());
    let result = call(sending, out);
    assert!(result.is_ok() || (*sending == before && out.len() == length));
    result
}

/// One end of the connection: what it receives, and the states of what it sends.
struct End {
    player: Player,
    control: ControlSending,
    sendings: BTreeMap<u64, Sending>,
    sent: BTreeMap<u64, Sent>,
}

impl End {
    fn new(endpoint: Endpoint, status: u32, pushes: bool) -> Self {
        let mut player = Player::new(endpoint, status);
        player.pushes = pushes;
        let control = ControlSending::new(&player.connection);
        End { player, control, sendings: BTreeMap::new(), sent: BTreeMap::new() }
    }

    /// Begins a request, whose response is read.
    fn request(&mut self, id: u64, asked: Asked) {
        let stream = self.player.connection.open(asked);
        self.player.add(id, stream);
        self.sendings.insert(id, Sending::request(&self.player.connection, id).unwrap());
    }

    fn response(&mut self, id: u64, asked: Asked) {
        let sending = Sending::response(&self.player.connection, id, asked).unwrap();
        self.sendings.insert(id, sending);
    }

    /// Sends a stream of a session whole.
    fn stream(&mut self, id: u64, session: u64, random: &mut Random) {
        let (sending, sent) = (&self.sendings[&session], self.sent.entry(id).or_default());
        match id & 2 {
            0 => sending.bidirectional(&mut sent.bytes).unwrap(),
            _ => sending.unidirectional(&mut sent.bytes).unwrap(),
        }
        sent.expect(Event::Joined(session));
        sent.content(random.below(300));
        sent.end();
    }

    /// Nothing is sent of a session that is not open.
    fn has_no_session(&mut self, id: u64) {
        let sending = self.sendings.get_mut(&id).unwrap();
        let calls: [Send; 5] = [
            |sending, out| sending.unidirectional(out),
            |sending, out| sending.bidirectional(out),
            |sending, out| sending.datagram(out),
            |sending, out| sending.drain(out),
            |sending, out| sending.close(7, "bye", out),
        ];
        for call in calls {
            assert_eq!(attempt(sending, &mut Vec::new(), call), Err(Refused::SessionNotOpen));
        }
    }

    /// Sends a section of a message. Returns whether it is allowed now.
    fn section(&mut self, id: u64, fields: &FieldList, event: Event<'_>) -> bool {
        let sent = self.sent.entry(id).or_default();
        let are_trailers = matches!(event, Event::Headers(HeadersKind::Trailers, _));
        let result =
            attempt(self.sendings.get_mut(&id).unwrap(), &mut sent.bytes, |sending, out| {
                match are_trailers {
                    true => sending.trailers(fields, out),
                    false => sending.headers(fields, out),
                }
            });
        if result.is_ok() {
            sent.expect(event);
        }
        result.is_ok()
    }

    /// Sends a DATA frame in random pieces. Returns whether it is allowed now.
    fn data(&mut self, id: u64, length: usize, random: &mut Random) -> bool {
        let sent = self.sent.entry(id).or_default();
        let sending = self.sendings.get_mut(&id).unwrap();
        if attempt(sending, &mut sent.bytes, |sending, out| sending.data(length as u64, out))
            .is_err()
        {
            return false;
        }
        while sending.owed() > 0 {
            let owed = sending.owed();
            for more in [owed + 1, u64::MAX] {
                let refused = attempt(sending, &mut sent.bytes, |sending, _| sending.sent(more));
                assert_eq!(refused, Err(SendError::DataExceeded.into()));
            }
            let refused = attempt(sending, &mut sent.bytes, |sending, _| sending.finish());
            assert_eq!(refused, Err(SendError::DataMissing.into()));
            let piece = 1 + random.below(owed as usize);
            sent.content(piece);
            sending.sent(piece as u64).unwrap();
        }
        true
    }

    fn finish(&mut self, id: u64) -> Result<(), Refused> {
        let sent = self.sent.entry(id).or_default();
        let sending = self.sendings.get_mut(&id).unwrap();
        attempt(sending, &mut sent.bytes, |sending, _| sending.finish())?;
        sent.end();
        Ok(())
    }

    /// Makes random calls of a message with these heads, and then those that end it.
    fn message(&mut self, id: u64, heads: &[(FieldList, HeadersKind)], random: &mut Random) {
        let trailers: FieldList = [("x-sum", "1"), ("x-sum", "2")].into();
        for _ in 0..random.below(12) {
            match random.below(8) {
                0 | 1 => {
                    let (fields, kind) = &heads[random.below(heads.len())];
                    self.section(id, fields, Event::Headers(*kind, fields.clone()));
                }
                2..=4 => drop(self.data(id, random.below(9), random)),
                5 => {
                    let event = Event::Headers(HeadersKind::Trailers, trailers.clone());
                    self.section(id, &trailers, event);
                }
                6 if self.finish(id).is_ok() => return,
                _ => {
                    let wrong = [(":status", "200"), ("Upper", "x")].into();
                    assert!(!self.section(id, &wrong, Event::End));
                }
            }
        }
        // the last head is a final one without content-length; and what is missing of another's content
        let (fields, kind) = heads.last().unwrap();
        self.section(id, fields, Event::Headers(*kind, fields.clone()));
        while self.finish(id).is_err() {
            assert!(self.data(id, 1, random));
        }
    }
}

/// Delivers what was sent on some streams from one end to the other, in random pieces and order, and compares
/// the events.
fn deliver(from: &mut End, to: &mut Player, ids: &[u64], random: &mut Random) {
    let mut left = Vec::new();
    for id in ids {
        let sent = &from.sent[id];
        let mut pieces = random.pieces(&sent.bytes);
        if sent.fin && (pieces.is_empty() || random.below(2) == 0) {
            pieces.push(b""); // the end comes alone
        }
        pieces.reverse();
        left.push((*id, pieces, sent.fin));
    }
    while !left.is_empty() {
        let place = random.below(left.len());
        let (id, pieces, fin) = &mut left[place];
        match pieces.pop() {
            Some(piece) => to.receive(*id, piece, *fin && pieces.is_empty()),
            None => drop(left.swap_remove(place)),
        }
    }
    for id in ids {
        let sent = from.sent.get_mut(id).unwrap();
        sent.bytes.clear();
        assert_eq!(to.text(*id), flush(&mut sent.events), "the stream {id}");
        assert!(to.streams[id].events.content == sent.events.content, "the stream {id}");
    }
}

const METHODS: [(&str, Asked); 3] =
    [("GET", Asked::Other), ("POST", Asked::Other), ("HEAD", Asked::Head)];
const TUNNEL: u64 = 12;
const SESSIONS: [u64; 2] = [16, 20];
const REQUESTS: [u64; 6] = [0, 4, 8, TUNNEL, 16, 20];

/// The heads of a request, the last one without content-length.
fn request_heads(method: &str) -> Vec<(FieldList, HeadersKind)> {
    let start = [(":method", method), (":scheme", "https"), (":authority", "a"), (":path", "/x?y")];
    let lines =
        [[("content-length", "7"), ("x", "caf\u{e9}")], [("cookie", "a=1"), ("cookie", "b")]];
    let heads = lines.map(|lines| start.into_iter().chain(lines).collect());
    heads.map(|fields| (fields, HeadersKind::Request)).into()
}

/// The heads of a response, the last one final and without content-length.
fn response_heads() -> Vec<(FieldList, HeadersKind)> {
    let hints = [(":status", "103"), ("link", "</a>"), ("link", "</b>")].into();
    let length = [(":status", "206"), ("content-length", "5")].into();
    let plain = [(":status", "404"), ("set-cookie", "a=1"), ("set-cookie", "b=2")].into();
    vec![
        (hints, HeadersKind::Interim(103)),
        (length, HeadersKind::Response(206)),
        (plain, HeadersKind::Response(404)),
    ]
}

/// One end sends its SETTINGS, which the other reads.
fn configure(from: &mut End, id: u64, endpoint: Endpoint, to: &mut Player, random: &mut Random) {
    let (settings, mut payload) = (endpoint.settings(16), Vec::new());
    settings.write(&mut payload).unwrap();
    let sent = from.sent.entry(id).or_default();
    from.control.settings(&settings, &mut sent.bytes).unwrap();
    sent.expect(Event::Settings(&payload));
    let again = from.control.settings(&settings, &mut sent.bytes);
    assert_eq!(again, Err(SendError::Unexpected.into()));
    to.accept(id);
    deliver(from, to, &[id], random);
    assert!(to.connection.allows_sessions());
}

/// The client sends its requests.
fn ask(client: &mut End, server: &mut End, random: &mut Random) {
    for (id, (method, asked)) in (0..).step_by(4).zip(METHODS) {
        client.request(id, asked);
        client.message(id, &request_heads(method), random);
    }
    client.request(TUNNEL, Asked::Connect);
    let fields: FieldList = [(":method", "CONNECT"), (":authority", "a:1")].into();
    let event = Event::Headers(HeadersKind::Request, fields.clone());
    assert!(client.section(TUNNEL, &fields, event) && !client.data(TUNNEL, 1, random));
    for id in SESSIONS {
        client.request(id, Asked::Session);
        let fields = SessionRequest::new("https://a/b?c").fields().unwrap();
        assert!(client.section(id, &fields, Event::SessionRequested(fields.clone())));
        client.has_no_session(id);
        assert!(!client.data(id, 1, random));
    }
    REQUESTS.into_iter().for_each(|id| server.player.accept(id));
    deliver(client, &mut server.player, &REQUESTS, random);
}

/// The server answers them, CONNECT with this status, and sends streams of its sessions.
fn answer(server: &mut End, client: &mut End, status: u32, random: &mut Random) {
    for (id, (_, asked)) in (0..).step_by(4).zip(METHODS) {
        server.response(id, asked);
        server.message(id, &response_heads(), random);
    }
    let text = status.to_string();
    let fields: FieldList = [(":status", text.as_str())].into();
    server.response(TUNNEL, Asked::Connect);
    let event = Event::Headers(HeadersKind::Response(status), fields.clone());
    assert!(server.section(TUNNEL, &fields, event) && server.data(TUNNEL, 5, random));
    server.finish(TUNNEL).unwrap();
    let mut ids = REQUESTS.to_vec();
    for (session, streams) in SESSIONS.into_iter().zip([[1, 7], [5, 11]]) {
        server.response(session, Asked::Session);
        server.has_no_session(session);
        if status == 404 {
            assert!(server.section(session, &fields, Event::Rejected(status, fields.clone())));
            server.has_no_session(session);
            assert!(server.data(session, 9, random));
            server.finish(session).unwrap();
            continue;
        }
        assert!(server.section(session, &fields, Event::SessionReady(status, fields.clone())));
        for id in streams {
            server.stream(id, session, random);
            client.player.accept(id);
            ids.push(id);
        }
    }
    deliver(server, &mut client.player, &ids, random);
}

/// The client goes on after the answers: with its tunnel and its sessions, or with their ends.
fn go_on(client: &mut End, server: &mut End, status: u32, random: &mut Random) {
    let mut ids = vec![TUNNEL];
    if status != 404 {
        client.sendings.get_mut(&TUNNEL).unwrap().connected().unwrap();
        assert!(client.data(TUNNEL, 7, random));
    }
    client.finish(TUNNEL).unwrap();
    for (session, streams) in SESSIONS.into_iter().zip([[6, 24], [10, 28]]) {
        if status == 404 {
            client.finish(session).unwrap();
            ids.push(session);
            continue;
        }
        client.sendings.get_mut(&session).unwrap().connected().unwrap();
        for id in streams {
            client.stream(id, session, random);
            server.player.accept(id);
            ids.push(id);
        }
    }
    deliver(client, &mut server.player, &ids, random);
}

/// The sessions end: the first by a close of one end, and the second by the end of the client's stream.
fn end_sessions(client: &mut End, server: &mut End, random: &mut Random) {
    let [first, second] = SESSIONS;
    let by_client = random.below(2) == 0;
    let (from, to) = if by_client { (&mut *client, &mut *server) } else { (server, client) };
    let sending = from.sendings.get_mut(&first).unwrap();
    let mut datagram = Vec::new();
    sending.datagram(&mut datagram).unwrap();
    datagram.extend_from_slice(b"abc");
    let came = to.player.connection.datagram(&datagram);
    assert_eq!(came, Ok(Some((first, &b"abc"[..]))));
    let sent = from.sent.entry(first).or_default();
    sending.drain(&mut sent.bytes).unwrap();
    sent.expect(Event::Draining);
    let reason = "r".repeat(random.below(1_024));
    sending.close(u32::MAX, &reason, &mut sent.bytes).unwrap();
    sent.closes(u32::MAX, &reason);
    sent.end();
    let stream = &mut from.player.streams.get_mut(&first).unwrap().pushed.stream;
    assert_eq!(from.player.connection.abandon(stream), Event::SessionLost);
    from.has_no_session(first);
    deliver(from, &mut to.player, &[first], random);
    let (client, server) = if by_client { (from, to) } else { (to, from) };
    client.sent.entry(second).or_default().closes(0, "");
    client.finish(second).unwrap();
    deliver(client, &mut server.player, &[second], random);
}

/// The server goes away, after which the client begins no request.
fn go_away(server: &mut End, client: &mut End, random: &mut Random) {
    for id in [Goaway::LARGEST, 24] {
        let sent = server.sent.entry(3).or_default();
        server.control.goaway(id, &mut sent.bytes).unwrap();
        sent.expect(Event::GoAway(id));
    }
    deliver(server, &mut client.player, &[3], random);
    let connection = &client.player.connection;
    assert!(connection.is_unprocessed(24) && !connection.is_unprocessed(20));
    assert_eq!(Sending::request(connection, 24), Err(Refused::GoAway));
}

#[test]
fn each_end_reads_what_the_other_sends() {
    for seed in 0..times(500) as u64 {
        let mut random = Random(seed);
        let status = [200, 299, 404][random.below(3)];
        let (client_end, server_end) = (Endpoint::client(LIMITS), Endpoint::server(LIMITS));
        let mut client = End::new(client_end, 0, random.below(2) == 0);
        let mut server = End::new(server_end, status, random.below(2) == 0);
        configure(&mut client, 2, client_end, &mut server.player, &mut random);
        configure(&mut server, 3, server_end, &mut client.player, &mut random);
        ask(&mut client, &mut server, &mut random);
        answer(&mut server, &mut client, status, &mut random);
        go_on(&mut client, &mut server, status, &mut random);
        if status != 404 {
            end_sessions(&mut client, &mut server, &mut random);
        }
        go_away(&mut server, &mut client, &mut random);
    }
}
