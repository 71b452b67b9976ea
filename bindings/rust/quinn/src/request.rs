//! A request, at a server.
use crate::code;
use crate::reader::{Item, Reader};
use crate::session::{Queues, Session};
use bytes::Bytes;
use quinn::SendStream;
use std::error::Error;
use std::time::Duration;
use tokio::time::timeout;
use vesgrauf::error::Code;
use vesgrauf::fields::FieldList;
use vesgrauf::session::SessionResponse;
use vesgrauf::{Asked, Refused, Sending};

/// How long content that nobody asked for is read after the response.
const DROPPING: Duration = Duration::from_secs(1);

/// What was sent; or why it may not be, or cannot be any more.
pub type Outcome<T> = Result<T, Box<dyn Error + Send + Sync>>;

/// A request, at a server: for a session, or for something else.
pub struct Request {
    pub(crate) asked: Asked,
    pub(crate) fields: FieldList,
    pub(crate) reader: Reader,
    pub(crate) send: SendStream,
}

impl Request {
    /// Returns the fields, the pseudo-header fields too. They are those of a valid request.
    pub fn fields(&self) -> &FieldList {
        &self.fields
    }

    /// Returns the text of a field, or an empty one.
    pub fn text(&self, name: &str) -> &str {
        let value = self.fields.first(name.as_bytes()).unwrap_or(b"");
        std::str::from_utf8(value).unwrap_or("")
    }

    /// Returns whether it is for a session.
    pub fn is_for_session(&self) -> bool {
        self.asked == Asked::Session
    }

    /// Returns the next piece of the content, and `None` at its end.
    pub async fn content(&mut self) -> Option<Bytes> {
        loop {
            let with = match self.reader.next().await {
                Item::Data(piece) => return Some(piece),
                Item::End => return None,
                Item::Failed(with) => with,
                Item::Reset(_) => Code::H3_REQUEST_CANCELLED,
                _ => continue,
            };
            let _ = self.send.reset(code(with));
            return None;
        }
    }

    /// Begins the response: returns its state, and the bytes of its head.
    fn begin(&self, response: &SessionResponse) -> Result<(Sending, Vec<u8>), Refused> {
        let (id, mut bytes) = (self.reader.id, Vec::new());
        let state = self.reader.shared.lock();
        let mut sending = Sending::response(&state.http, id, self.asked)?;
        sending.headers(&response.fields(), &mut bytes)?;
        Ok((sending, bytes))
    }

    /// Says that the response was sent, for which a CONNECT waits.
    fn answer(&self, status: u32) {
        let shared = &self.reader.shared;
        shared.with(|state| state.streams.get_mut(&self.reader.id).map(|its| its.answer(status)));
        shared.changed.notify_waiters();
    }

    /// Accepts a session.
    pub async fn accept(mut self) -> Outcome<Session> {
        let (sending, bytes) = self.begin(&SessionResponse::ok())?;
        self.send.write_all(&bytes).await?;
        let (queues, ends) = Queues::new();
        let id = self.reader.id;
        self.reader.shared.with(|state| state.sessions.insert(id, queues)); // before streams join
        self.answer(200);
        Ok(Session::begin(self.reader, self.send, sending, ends))
    }

    /// Responds with a status, fields and content. So a request for a session is refused.
    pub async fn respond(
        mut self,
        status: u32,
        fields: &[(&str, &str)],
        content: &[u8],
    ) -> Outcome<()> {
        let mut response = SessionResponse::with_status_code(status);
        fields.iter().for_each(|(name, value)| response.add(name.as_bytes(), value.as_bytes()));
        let (mut sending, mut bytes) = self.begin(&response)?;
        sending.content(content, &mut bytes)?;
        sending.finish()?;
        self.send.write_all(&bytes).await?;
        self.answer(status);
        // what still comes is dropped, for a while, and then refused (RFC 9114, section 4.1)
        let (finished, _) =
            tokio::join!(self.send.finish(), timeout(DROPPING, self.reader.drain()));
        self.reader.stop(Code::H3_NO_ERROR);
        Ok(finished?)
    }
}
