//! A session: its streams, its datagrams and its end.
use crate::connection::Shared;
use crate::reader::{Item, Reader};
use crate::{code, number};
use bytes::Bytes;
use quinn::{SendStream, WriteError};
use std::future::Future;
use std::sync::Arc;
use std::time::Duration;
use tokio::sync::{mpsc, watch, Mutex};
use vesgrauf::error::{application_codes, Code};
use vesgrauf::{Refused, Sending, Stream};

/// How many datagrams wait for the application. More are dropped.
const DATAGRAMS: usize = 256;

/// How long the peer has to end its half of the stream of a session that is over.
const ENDING: Duration = Duration::from_secs(5);

/// A call that appends the first bytes of something of a session.
type Head = fn(&Sending, &mut Vec<u8>) -> Result<(), Refused>;

/// How a session ended.
#[derive(Clone, Debug, PartialEq, Eq)]
pub enum Closed {
    /// The peer closed it, with the code and the reason of its application.
    Peer(u32, String),
    /// It was closed here.
    Here,
    /// It ended otherwise.
    Lost,
}

/// Why a stream of a session cannot be read or written any more.
#[derive(Clone, Debug, PartialEq, Eq)]
pub enum StreamError {
    /// The peer reset it, or asked to stop it, with this code of its application, if it is one.
    Peer(Option<u32>),
    /// The session is over.
    SessionGone,
    /// The connection is over.
    Lost,
}

/// Where what comes for a session goes.
#[derive(Clone)]
pub(crate) struct Queues {
    both_ways: mpsc::UnboundedSender<(SendStream, Reader)>,
    one_way: mpsc::UnboundedSender<Reader>,
    datagrams: mpsc::Sender<Bytes>,
}

/// From where a session takes it.
pub(crate) struct Ends {
    both_ways: mpsc::UnboundedReceiver<(SendStream, Reader)>,
    one_way: mpsc::UnboundedReceiver<Reader>,
    datagrams: mpsc::Receiver<Bytes>,
}

impl Queues {
    /// QUIC's limit on streams bounds how many wait.
    pub fn new() -> (Queues, Ends) {
        let both_ways = mpsc::unbounded_channel();
        let one_way = mpsc::unbounded_channel();
        let datagrams = mpsc::channel(DATAGRAMS);
        let queues = Queues { both_ways: both_ways.0, one_way: one_way.0, datagrams: datagrams.0 };
        (queues, Ends { both_ways: both_ways.1, one_way: one_way.1, datagrams: datagrams.1 })
    }

    pub fn both_ways(&self, send: SendStream, reader: Reader) {
        let _ = self.both_ways.send((send, reader));
    }

    pub fn one_way(&self, reader: Reader) {
        let _ = self.one_way.send(reader);
    }

    pub fn datagram(&self, payload: Bytes) {
        let _ = self.datagrams.try_send(payload);
    }
}

/// A session. Its methods may be called from several tasks at once.
pub struct Session {
    shared: Arc<Shared>,
    id: u64,
    both_ways: Mutex<mpsc::UnboundedReceiver<(SendStream, Reader)>>,
    one_way: Mutex<mpsc::UnboundedReceiver<Reader>>,
    datagrams: Mutex<mpsc::Receiver<Bytes>>,
    /// What may be sent; not locked while anything waits.
    sending: std::sync::Mutex<Sending>,
    /// The last bytes of its stream.
    closes: mpsc::UnboundedSender<Vec<u8>>,
    over: watch::Receiver<Option<Closed>>,
}

impl Session {
    pub(crate) fn begin(reader: Reader, send: SendStream, sending: Sending, ends: Ends) -> Self {
        let (closes, closing) = mpsc::unbounded_channel();
        let (end, over) = watch::channel(None);
        let (shared, id) = (reader.shared.clone(), reader.id);
        tokio::spawn(run(reader, send, closing, end));
        Session {
            shared,
            id,
            sending: std::sync::Mutex::new(sending),
            both_ways: Mutex::new(ends.both_ways),
            one_way: Mutex::new(ends.one_way),
            datagrams: Mutex::new(ends.datagrams),
            closes,
            over,
        }
    }

    fn send(&self, quic: SendStream) -> Send {
        Send { shared: self.shared.clone(), quic, over: self.over.clone(), finished: false }
    }

    fn receive(&self, reader: Reader) -> Receive {
        Receive { reader, over: self.over.clone() }
    }

    /// Returns the first bytes of something of the session.
    fn head(&self, of: Head) -> Result<Vec<u8>, StreamError> {
        let mut bytes = Vec::new();
        of(&self.sending.lock().unwrap(), &mut bytes).map_err(|_| StreamError::SessionGone)?;
        Ok(bytes)
    }

    /// Opens a bidirectional stream.
    pub async fn open_bi(&self) -> Result<(Send, Receive), StreamError> {
        let head = self.head(Sending::bidirectional)?;
        let (send, recv) = self.shared.quic.open_bi().await.map_err(|_| StreamError::Lost)?;
        let id = number(send.id());
        self.shared.with(|state| state.streams.insert(id, Stream::of_session(self.id)));
        let receive = self.receive(Reader::new(&self.shared, id, recv, false));
        let mut send = self.send(send);
        send.write_all(&head).await?;
        Ok((send, receive))
    }

    /// Opens a unidirectional stream.
    pub async fn open_uni(&self) -> Result<Send, StreamError> {
        let head = self.head(Sending::unidirectional)?;
        let send = self.shared.quic.open_uni().await.map_err(|_| StreamError::Lost)?;
        let mut send = self.send(send);
        send.write_all(&head).await?;
        Ok(send)
    }

    /// Returns the next bidirectional stream of the peer, until the session is over.
    pub async fn accept_bi(&self) -> Option<(Send, Receive)> {
        let next = async { self.both_ways.lock().await.recv().await };
        let (send, reader) = until_over(&self.over, next).await??;
        Some((self.send(send), self.receive(reader)))
    }

    /// Returns the next unidirectional stream of the peer, until the session is over.
    pub async fn accept_uni(&self) -> Option<Receive> {
        let next = async { self.one_way.lock().await.recv().await };
        let reader = until_over(&self.over, next).await??;
        Some(self.receive(reader))
    }

    /// Returns the next datagram of the peer, until the session is over.
    pub async fn datagram(&self) -> Option<Bytes> {
        until_over(&self.over, async { self.datagrams.lock().await.recv().await }).await?
    }

    /// Sends a datagram, which may be lost. One that is too long, or that the peer does not take, is dropped.
    pub fn send_datagram(&self, payload: &[u8]) {
        if let Ok(mut bytes) = self.head(Sending::datagram) {
            bytes.extend_from_slice(payload);
            let _ = self.shared.quic.send_datagram(bytes.into());
        }
    }

    /// Closes the session, with a code and a reason of at most 1,024 bytes; if that was done before, it waits.
    pub async fn close(&self, code: u32, reason: &str) -> Closed {
        let mut bytes = Vec::new();
        if self.sending.lock().unwrap().close(code, reason, &mut bytes).is_ok() {
            let _ = self.closes.send(bytes);
        }
        self.closed().await
    }

    /// Returns how the session ended, when it has.
    pub async fn closed(&self) -> Closed {
        let mut over = self.over.clone();
        loop {
            let closed = over.borrow_and_update().clone();
            match closed {
                Some(closed) => return closed,
                None if over.changed().await.is_err() => return Closed::Lost,
                None => {}
            }
        }
    }
}

/// Returns what a future gives, unless the session ends before.
async fn until_over<T>(
    over: &watch::Receiver<Option<Closed>>,
    next: impl Future<Output = T>,
) -> Option<T> {
    let mut over = over.clone();
    let end = async {
        loop {
            let is_over = over.borrow_and_update().is_some();
            if is_over || over.changed().await.is_err() {
                return;
            }
        }
    };
    tokio::select! {
        biased;
        next = next => Some(next),
        _ = end => None,
    }
}

/// Reads the own stream of a session to its end, and closes it when that is asked for.
async fn run(
    mut reader: Reader,
    mut send: SendStream,
    closing: mpsc::UnboundedReceiver<Vec<u8>>,
    end: watch::Sender<Option<Closed>>,
) {
    let (shared, id) = (reader.shared.clone(), reader.id);
    let closed = until_closed(&mut reader, &mut send, closing).await;
    shared.with(|state| state.sessions.remove(&id));
    shared.changed.notify_waiters();
    let here = closed == Closed::Here;
    let _ = end.send(Some(closed));
    let _ = tokio::time::timeout(ENDING, finish(reader, send, here)).await;
}

/// Returns how the session of this stream ends, when it does.
async fn until_closed(
    reader: &mut Reader,
    send: &mut SendStream,
    mut closing: mpsc::UnboundedReceiver<Vec<u8>>,
) -> Closed {
    let (shared, id) = (reader.shared.clone(), reader.id);
    loop {
        tokio::select! {
            item = reader.next() => match item {
                Item::SessionClosed(close) => {
                    return Closed::Peer(close.code(), close.reason().into());
                }
                Item::SessionLost | Item::End | Item::Reset(_) => return Closed::Lost,
                Item::Failed(with) => drop(send.reset(code(with))),
                Item::Datagram(payload) => shared.deliver(id, |queues| queues.datagram(payload)),
                _ => {}
            },
            stopped = send.stopped() => {
                shared.with(|state| {
                    state.streams.get_mut(&id).map(|stream| state.http.stop(stream))
                });
                if let Ok(with) = stopped {
                    let _ = send.reset(with);
                }
                return Closed::Lost;
            }
            Some(bytes) = closing.recv() => {
                if send.write_all(&bytes).await.is_ok() {
                    // until the peer has it: the connection may be closed right after
                    let _ = tokio::time::timeout(ENDING, send.finish()).await;
                    shared.with(|state| state.abandon(id));
                    return Closed::Here;
                }
            }
        }
    }
}

/// Ends the stream of a session that is over. `here`: it was closed here, and the own half is ended.
async fn finish(mut reader: Reader, mut send: SendStream, here: bool) {
    if here {
        return reader.drain().await;
    }
    let _ = send.finish().await;
    while matches!(reader.next().await, Item::Data(_) | Item::Datagram(_)) {}
}

/// The own half of a stream of a session. Dropped, it ends the half, or resets it if the session is over.
pub struct Send {
    shared: Arc<Shared>,
    quic: SendStream,
    over: watch::Receiver<Option<Closed>>,
    finished: bool,
}

impl Send {
    /// Writes all of the bytes.
    pub async fn write_all(&mut self, bytes: &[u8]) -> Result<(), StreamError> {
        let written = until_over(&self.over, self.quic.write_all(bytes)).await;
        self.result(written)
    }

    /// Ends the half, and waits until the peer has all of it.
    pub async fn finish(&mut self) -> Result<(), StreamError> {
        if self.finished {
            return Ok(()); // quinn's call panics when it is repeated
        }
        let finished = until_over(&self.over, self.quic.finish()).await;
        self.finished = finished.is_some();
        self.result(finished)
    }

    fn result(&mut self, result: Option<Result<(), WriteError>>) -> Result<(), StreamError> {
        match result {
            Some(Ok(())) => Ok(()),
            Some(Err(WriteError::Stopped(with))) => {
                let id = number(self.quic.id());
                self.shared
                    .with(|state| state.streams.get_mut(&id).map(|stream| state.http.stop(stream)));
                let _ = self.quic.reset(with);
                self.finished = true;
                Err(StreamError::Peer(application_code(with)))
            }
            Some(Err(_)) => Err(StreamError::Lost),
            None => Err(StreamError::SessionGone),
        }
    }

    /// Resets the half with a code of the application.
    pub fn reset(&mut self, with: u32) {
        let _ = self.quic.reset(code(application_codes::to_http3(with)));
        self.finished = true;
    }
}

impl Drop for Send {
    fn drop(&mut self) {
        if !self.finished && self.over.borrow().is_some() {
            let _ = self.quic.reset(code(Code::WEBTRANSPORT_SESSION_GONE));
        }
    }
}

/// The peer's half of a stream of a session. Dropped before its end, it is stopped.
pub struct Receive {
    reader: Reader,
    over: watch::Receiver<Option<Closed>>,
}

impl Receive {
    /// Returns the next bytes, and `None` at the end.
    pub async fn read(&mut self) -> Result<Option<Bytes>, StreamError> {
        loop {
            let item = match until_over(&self.over, self.reader.next()).await {
                Some(item) => item,
                None => {
                    self.reader.stop(Code::WEBTRANSPORT_SESSION_GONE);
                    return Err(StreamError::SessionGone);
                }
            };
            match item {
                Item::Data(piece) => return Ok(Some(piece)),
                Item::End => return Ok(None),
                Item::Reset(with) => {
                    return Err(StreamError::Peer(application_codes::from_http3(with)))
                }
                Item::Failed(_) => return Err(StreamError::Lost),
                _ => {}
            }
        }
    }

    /// Returns all bytes up to the end, or the first `limit` of them.
    pub async fn read_to_end(&mut self, limit: usize) -> Result<Vec<u8>, StreamError> {
        let mut all = Vec::new();
        while let Some(piece) = self.read().await? {
            all.extend_from_slice(&piece[..piece.len().min(limit - all.len())]);
        }
        Ok(all)
    }

    /// Asks the peer to send no more, with a code of the application.
    pub fn stop(&mut self, with: u32) {
        self.reader.stop(application_codes::to_http3(with));
    }
}

fn application_code(number: quinn::VarInt) -> Option<u32> {
    application_codes::from_http3(Code::new(number.into_inner()))
}
