//! A connection of HTTP/3 and WebTransport over one of quinn.
use crate::reader::{Item, Reader};
use crate::request::{Outcome, Request};
use crate::session::{Queues, Session};
use crate::{code, number};
use quinn::{RecvStream, SendStream};
use std::collections::HashMap;
use std::sync::{Arc, Mutex, MutexGuard};
use tokio::sync::{mpsc, Notify};
use vesgrauf::error::Code;
use vesgrauf::fields::FieldList;
use vesgrauf::session::SessionRequest;
use vesgrauf::{
    Asked, Connection, ControlSending, DatagramFor, Endpoint, Event, Known, Limits, Purpose,
    Received, Sending, Stream,
};

/// What is read at most.
pub const LIMITS: Limits = Limits { max_section: 65_536, max_fields: 65_536, max_datagram: 1_500 };

/// How many sessions the peer may open at once.
const SESSIONS: u64 = 64;

/// What the tasks of a connection share.
pub(crate) struct Shared {
    pub quic: quinn::Connection,
    state: Mutex<State>,
    /// Told whenever something changed for which a stream may wait.
    pub changed: Notify,
    /// Told whenever a stream is doomed.
    pub dooms: Notify,
}

/// What the streams of a connection have in common.
pub(crate) struct State {
    pub http: Connection,
    /// The streams of the peer that are read, and at a client those of its sessions.
    pub streams: HashMap<u64, Stream>,
    /// Where what comes for a session goes.
    pub sessions: HashMap<u64, Queues>,
    /// Streams that are to be reset and stopped, with their codes.
    pub doomed: HashMap<u64, Code>,
}

impl State {
    pub fn receive<'a>(&mut self, id: u64, bytes: &'a [u8], fin: bool) -> Option<Received<'a>> {
        let stream = self.streams.get_mut(&id)?;
        Some(self.http.receive(stream, bytes, fin))
    }

    fn known(&self, session: u64) -> Known {
        self.http.known(session, self.streams.get(&session))
    }

    /// Says what is known of the session of a stream.
    pub fn join(&mut self, id: u64, session: u64) -> Event<'static> {
        let known = self.known(session);
        match self.streams.get_mut(&id) {
            Some(stream) => self.http.join(stream, known),
            None => Event::More,
        }
    }

    /// Reads a stream no further.
    pub fn abandon(&mut self, id: u64) {
        if let Some(stream) = self.streams.get_mut(&id) {
            self.http.abandon(stream);
        }
    }
}

impl Shared {
    pub fn lock(&self) -> MutexGuard<'_, State> {
        self.state.lock().unwrap()
    }

    pub fn with<T>(&self, action: impl FnOnce(&mut State) -> T) -> T {
        action(&mut self.lock())
    }

    /// Closes the connection.
    pub fn fail(&self, with: Code) -> Item {
        self.quic.close(code(with), b"");
        Item::End
    }

    /// Gives what comes for a session to it. If it is over, what comes is dropped.
    pub fn deliver(&self, session: u64, action: impl FnOnce(&Queues)) {
        // a reader that is dropped takes the lock
        let queues = self.with(|state| state.sessions.get(&session).cloned());
        if let Some(queues) = queues {
            action(&queues);
        }
    }
}

/// A connection of HTTP/3 and WebTransport.
pub struct Http {
    shared: Arc<Shared>,
    requests: mpsc::UnboundedReceiver<Request>,
}

impl Http {
    /// Begins a server's connection.
    pub fn server(quic: quinn::Connection) -> Self {
        Http::new(quic, Endpoint::server(LIMITS))
    }

    /// Begins a client's connection.
    pub fn client(quic: quinn::Connection) -> Self {
        Http::new(quic, Endpoint::client(LIMITS))
    }

    fn new(quic: quinn::Connection, endpoint: Endpoint) -> Self {
        let http = Connection::new(endpoint).expect("the limits are within their ranges");
        let state = State {
            http,
            streams: HashMap::new(),
            sessions: HashMap::new(),
            doomed: HashMap::new(),
        };
        let (changed, dooms) = (Notify::new(), Notify::new());
        let shared = Arc::new(Shared { quic, state: Mutex::new(state), changed, dooms });
        let (sender, requests) = mpsc::unbounded_channel();
        tokio::spawn(control(shared.clone(), endpoint));
        tokio::spawn(accept_one_way(shared.clone()));
        tokio::spawn(accept_both_ways(shared.clone(), sender));
        tokio::spawn(read_datagrams(shared.clone()));
        Http { shared, requests }
    }

    /// Returns the next request of the client, at a server, until the connection ends. QUIC's limit on
    /// streams bounds how many wait.
    pub async fn request(&mut self) -> Option<Request> {
        self.requests.recv().await
    }

    /// Asks for the session at a URL, at a client.
    pub async fn connect(&self, url: &str) -> Outcome<Session> {
        self.await_settings().await?;
        let fields = SessionRequest::new(url).fields()?;
        let (mut send, recv) = self.shared.quic.open_bi().await?;
        let (id, mut bytes) = (number(send.id()), Vec::new());
        let (queues, ends) = Queues::new();
        let mut sending = self.shared.with(|state| {
            state.streams.insert(id, state.http.open(Asked::Session));
            state.sessions.insert(id, queues); // streams may come right after the response
            Sending::request(&state.http, id)
        })?;
        let mut reader = Reader::new(&self.shared, id, recv, true);
        sending.headers(&fields, &mut bytes)?;
        send.write_all(&bytes).await?;
        let item = reader.next().await;
        if let Item::SessionReady(_) = item {
            sending.connected()?;
            return Ok(Session::begin(reader, send, sending, ends));
        }
        self.shared.with(|state| state.sessions.remove(&id));
        let _ = send.reset(code(Code::H3_REQUEST_CANCELLED));
        Err(format!("no session: {item:?}").into())
    }

    /// Waits for the server's SETTINGS.
    async fn await_settings(&self) -> Outcome<()> {
        loop {
            let changed = self.shared.changed.notified();
            if self.shared.with(|state| state.http.settings().came) {
                return Ok(());
            }
            tokio::select! {
                _ = changed => {}
                error = self.shared.quic.closed() => return Err(error.into()),
            }
        }
    }

    /// Closes the connection.
    pub fn close(&self) {
        self.shared.fail(Code::H3_NO_ERROR);
    }
}

/// Sends the own SETTINGS, and keeps the control stream open.
async fn control(shared: Arc<Shared>, endpoint: Endpoint) {
    let (settings, mut bytes) = (endpoint.settings(SESSIONS), Vec::new());
    let mut control = shared.with(|state| ControlSending::new(&state.http));
    control.settings(&settings, &mut bytes).expect("they are valid, and the first bytes");
    if let Ok(mut send) = shared.quic.open_uni().await {
        if send.write_all(&bytes).await.is_ok() && send.stopped().await.is_ok() {
            let fault = shared.with(|state| state.http.stopped(Purpose::Control));
            shared.fail(fault.unwrap_or(Code::H3_CLOSED_CRITICAL_STREAM));
        }
    }
}

/// Begins a stream that the peer opened.
fn accept(shared: &Arc<Shared>, recv: RecvStream) -> Reader {
    let id = number(recv.id());
    shared.with(|state| {
        let stream = state.http.accept(id);
        state.streams.insert(id, stream);
    });
    Reader::new(shared, id, recv, false)
}

async fn accept_one_way(shared: Arc<Shared>) {
    while let Ok(recv) = shared.quic.accept_uni().await {
        tokio::spawn(read_one_way(accept(&shared, recv)));
    }
}

async fn read_one_way(mut reader: Reader) {
    loop {
        match reader.next().await {
            Item::Joined(session) => {
                let shared = reader.shared.clone();
                return shared.deliver(session, |queues| queues.one_way(reader));
            }
            Item::End | Item::Failed(_) | Item::Reset(_) => return,
            _ => {}
        }
    }
}

async fn accept_both_ways(shared: Arc<Shared>, requests: mpsc::UnboundedSender<Request>) {
    while let Ok((send, recv)) = shared.quic.accept_bi().await {
        tokio::spawn(read_both_ways(accept(&shared, recv), send, requests.clone()));
    }
}

async fn read_both_ways(
    mut reader: Reader,
    mut send: SendStream,
    requests: mpsc::UnboundedSender<Request>,
) {
    match reader.next().await {
        Item::Joined(session) => {
            let shared = reader.shared.clone();
            shared.deliver(session, |queues| queues.both_ways(send, reader));
        }
        Item::Request(asked, fields) => {
            let _ = requests.send(Request { asked, fields, reader, send });
        }
        Item::TooLarge => {
            let request = Request { asked: Asked::Other, fields: FieldList::new(), reader, send };
            let _ = request.respond(431, &[], b"").await; // RFC 6585, section 5
        }
        Item::Failed(with) => drop(send.reset(code(with))),
        Item::Reset(_) => drop(send.reset(code(Code::H3_REQUEST_CANCELLED))),
        _ => {}
    }
}

async fn read_datagrams(shared: Arc<Shared>) {
    while let Ok(bytes) = shared.quic.read_datagram().await {
        let mut state = shared.lock();
        let (session, payload) = match state.http.datagram(&bytes) {
            Ok(Some((session, payload))) => (session, bytes.slice_ref(payload)),
            Ok(None) => continue,
            Err(code) => {
                shared.fail(code);
                return;
            }
        };
        match state.known(session).datagram_for() {
            DatagramFor::Deliver => {
                if let Some(queues) = state.sessions.get(&session) {
                    queues.datagram(payload);
                }
            }
            DatagramFor::EndStream => {
                state.doomed.insert(session, Code::H3_DATAGRAM_ERROR);
                shared.dooms.notify_waiters();
            }
            // early ones are dropped
            DatagramFor::Early | DatagramFor::Discard => {}
        }
    }
}
