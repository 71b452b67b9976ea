//! The settings of the peer, and clients that resume a session of TLS with 0-RTT (RFC 9114, section 7.2.4.2).
use super::{Connection, Endpoint, InvalidEndpoint};
use crate::settings::PeerSettings;
use crate::sys;

impl Connection {
    /// Creates the connection of a client that resumes a session of TLS and sends early data (0-RTT).
    ///
    /// `remembered` is what [`settings`](Self::settings) returned in that session: these are the server's
    /// settings until its SETTINGS come, which must keep them; otherwise the event is
    /// [`Event::ConnectionError`](crate::Event::ConnectionError). If no SETTINGS came in that session,
    /// nothing is remembered, and this is [`new`](Self::new); at a server too.
    ///
    /// Sessions are possible once SETTINGS came: a request for one is not sent as early data.
    ///
    /// # Errors
    ///
    /// [`InvalidEndpoint`], also if a number of `remembered` is 2^62 or more.
    pub fn resuming(
        endpoint: Endpoint,
        remembered: &PeerSettings,
    ) -> Result<Self, InvalidEndpoint> {
        let words = remembered.words().ok_or(InvalidEndpoint)?;
        if !remembered.came {
            return Connection::new(endpoint);
        }
        Connection::of(sys::connection_resuming(&endpoint.words(), &words))
    }

    /// Says that the server did not accept early data: until its SETTINGS come each setting has its default
    /// again, and they need not keep what is remembered. Nothing changes after its SETTINGS, and if no
    /// session is resumed.
    pub fn early_data_refused(&mut self) {
        sys::early_data_refused(&mut self.state);
    }

    /// Returns the settings of the peer: those of its SETTINGS, from
    /// [`Event::Settings`](crate::Event::Settings) on. Before it each has its default, or is the one
    /// [remembered](Self::resuming).
    pub fn settings(&self) -> PeerSettings {
        PeerSettings::of(&sys::connection_settings(&self.state))
    }
}
