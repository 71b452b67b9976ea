//! Settings of a connection (RFC 9114, section 7.2.4).
use crate::error::{ReadError, WriteError};
use crate::frame::{write_frame, FrameKind};
use crate::stream_header::StreamHeader;
use crate::sys;
use alloc::string::String;
use alloc::vec;
use alloc::vec::Vec;
use core::fmt;

/// The identifier of a setting.
#[derive(Clone, Copy, PartialEq, Eq, Hash, PartialOrd, Ord)]
pub struct SettingId(u64);

impl SettingId {
    /// The largest capacity of the dynamic table, in bytes (RFC 9204, section 5).
    pub const QPACK_MAX_TABLE_CAPACITY: Self = SettingId(sys::WT_SETTING_QPACK_MAX_TABLE_CAPACITY);
    /// The largest field section, in bytes (RFC 9114, section 7.2.4.1).
    pub const MAX_FIELD_SECTION_SIZE: Self = SettingId(sys::WT_SETTING_MAX_FIELD_SECTION_SIZE);
    /// How many streams may be blocked (RFC 9204, section 5).
    pub const QPACK_BLOCKED_STREAMS: Self = SettingId(sys::WT_SETTING_QPACK_BLOCKED_STREAMS);
    /// Extended CONNECT is supported (RFC 9220, section 3).
    pub const ENABLE_CONNECT_PROTOCOL: Self = SettingId(sys::WT_SETTING_ENABLE_CONNECT_PROTOCOL);
    /// Datagrams are supported (RFC 9297, section 2.1.1).
    pub const H3_DATAGRAM: Self = SettingId(sys::WT_SETTING_H3_DATAGRAM);
    /// WebTransport is supported (draft-ietf-webtrans-http3-02, section 3.1).
    pub const ENABLE_WEBTRANSPORT: Self = SettingId(sys::WT_SETTING_ENABLE_WEBTRANSPORT);
    /// How many sessions may be open at once (draft-ietf-webtrans-http3-07).
    pub const WEBTRANSPORT_MAX_SESSIONS: Self =
        SettingId(sys::WT_SETTING_WEBTRANSPORT_MAX_SESSIONS);

    /// Creates the identifier with this number.
    pub const fn new(number: u64) -> Self {
        SettingId(number)
    }

    /// Returns the number.
    pub const fn id(self) -> u64 {
        self.0
    }

    /// Returns the name, or `None` if the setting is unknown. One that is reserved for exercise has its
    /// number as its name.
    pub fn name(self) -> Option<String> {
        sys::setting_name(self.0)
    }
}

impl fmt::Debug for SettingId {
    fn fmt(&self, f: &mut fmt::Formatter<'_>) -> fmt::Result {
        match self.name() {
            Some(name) => f.write_str(&name),
            None => write!(f, "{:#x}", self.0),
        }
    }
}

/// Settings of a connection, in the order of the SETTINGS frame, unknown ones too.
///
/// ```
/// use vesgrauf::settings::{SettingId, Settings};
///
/// let settings = Settings::new()
///     .set(SettingId::ENABLE_CONNECT_PROTOCOL, 1)
///     .set(SettingId::H3_DATAGRAM, 1);
/// let mut payload = Vec::new();
/// settings.write(&mut payload)?;
/// assert_eq!(payload, [0x08, 1, 0x33, 1]);
/// assert_eq!(Settings::read(&payload).unwrap(), settings);
/// assert_eq!(settings.get(SettingId::ENABLE_WEBTRANSPORT), None);
/// # Ok::<(), vesgrauf::error::WriteError>(())
/// ```
#[derive(Clone, Debug, Default, PartialEq, Eq)]
pub struct Settings {
    list: Vec<(SettingId, u64)>,
}

impl Settings {
    /// Creates settings in which nothing is set.
    pub fn new() -> Self {
        Settings::default()
    }

    /// Sets a setting, in place of its previous value.
    pub fn set(mut self, id: SettingId, value: u64) -> Self {
        match self.list.iter_mut().find(|(other, _)| *other == id) {
            Some((_, old)) => *old = value,
            None => self.list.push((id, value)),
        }
        self
    }

    /// Returns the value of a setting, if it is set. Of an unknown one that is repeated it is the first.
    pub fn get(&self, id: SettingId) -> Option<u64> {
        let mut found = self.list.iter().filter(|(other, _)| *other == id);
        found.next().map(|(_, value)| *value)
    }

    /// Returns an iterator over the settings and their values, in their order.
    pub fn iter(&self) -> impl Iterator<Item = (SettingId, u64)> + '_ {
        self.list.iter().copied()
    }

    /// Reads the payload of a SETTINGS frame. A value may be any number: whether the setting allows it
    /// is for the caller to check, or for [`Connection`](crate::Connection).
    ///
    /// # Errors
    ///
    /// [`Code::H3_FRAME_ERROR`](crate::error::Code::H3_FRAME_ERROR) if the payload is cut;
    /// [`Code::H3_SETTINGS_ERROR`](crate::error::Code::H3_SETTINGS_ERROR) for an identifier of HTTP/2, or
    /// a known or reserved one that is repeated.
    pub fn read(payload: &[u8]) -> Result<Self, ReadError> {
        // a setting takes two bytes at least
        let mut list = vec![sys::Setting::default(); payload.len() / 2];
        match sys::settings_read(payload, &mut list) {
            (sys::WT_OK, count, _) => {
                let pairs = list[..count].iter();
                let list = pairs.map(|one| (SettingId(one.id), one.value)).collect();
                Ok(Settings { list })
            }
            (answer, _, code) => Err(ReadError::of(answer, code)),
        }
    }

    /// Appends the payload of a SETTINGS frame.
    ///
    /// # Errors
    ///
    /// [`WriteError::Invalid`] if a number is 2^62 or more, an identifier is one of HTTP/2, or a known or
    /// reserved one is repeated; [`WriteError::Memory`].
    pub fn write(&self, out: &mut Vec<u8>) -> Result<(), WriteError> {
        WriteError::result(sys::settings_write(&self.words(), out))
    }

    /// Returns the structs of the library.
    pub(crate) fn words(&self) -> Vec<sys::Setting> {
        self.list.iter().map(|&(SettingId(id), value)| sys::Setting { id, value }).collect()
    }

    /// Appends what a control stream starts with: its header and the SETTINGS frame. A
    /// [`ControlSending`](crate::ControlSending) does so once.
    ///
    /// # Errors
    ///
    /// As [`write`](Self::write).
    pub fn write_control_stream(&self, out: &mut Vec<u8>) -> Result<(), WriteError> {
        let mut payload = Vec::new();
        self.write(&mut payload)?;
        let old = out.len();
        StreamHeader::new_control().write(out)?;
        write_frame(FrameKind::Settings, &payload, out).map_err(|error| {
            out.truncate(old);
            error
        })
    }
}

/// The settings of the peer: the value of each setting that has a name, which is its default until SETTINGS
/// come.
///
/// It can be stored with a ticket of TLS, for [`Connection::resuming`](crate::Connection::resuming).
#[derive(Clone, Copy, Debug, Default, PartialEq, Eq)]
pub struct PeerSettings {
    /// SETTINGS_QPACK_MAX_TABLE_CAPACITY (0x01): the largest capacity of the peer's dynamic table, in bytes
    /// (RFC 9204, section 5). By default 0.
    pub qpack_max_table_capacity: u64,
    /// SETTINGS_MAX_FIELD_SECTION_SIZE (0x06): the largest field section that the peer accepts, in bytes
    /// (RFC 9114, section 7.2.4.1). By default there is no limit.
    pub max_field_section_size: Option<u64>,
    /// SETTINGS_QPACK_BLOCKED_STREAMS (0x07): how many streams may be blocked at the peer (RFC 9204,
    /// section 5). By default 0.
    pub qpack_blocked_streams: u64,
    /// SETTINGS_ENABLE_CONNECT_PROTOCOL (0x08): extended CONNECT is supported (RFC 9220, section 3). By
    /// default it is not.
    pub enable_connect_protocol: bool,
    /// SETTINGS_H3_DATAGRAM (0x33): datagrams are supported (RFC 9297, section 2.1.1). By default they are
    /// not.
    pub h3_datagram: bool,
    /// SETTINGS_ENABLE_WEBTRANSPORT (0x2b603742): WebTransport is supported
    /// (draft-ietf-webtrans-http3-02, section 3.1). By default it is not.
    pub enable_webtransport: bool,
    /// SETTINGS_WEBTRANSPORT_MAX_SESSIONS (0xc671706a): how many sessions may be open at once
    /// (draft-ietf-webtrans-http3-07). By default 0.
    pub webtransport_max_sessions: u64,
    /// SETTINGS_WT_MAX_SESSIONS (0x14e9cd29): the same in later drafts. By default 0.
    pub wt_max_sessions: u64,
    /// Whether SETTINGS of the peer came.
    pub came: bool,
}

impl PeerSettings {
    pub(crate) fn of(settings: &sys::PeerSettings) -> Self {
        let limit = settings.max_field_section_size;
        PeerSettings {
            qpack_max_table_capacity: settings.qpack_max_table_capacity,
            max_field_section_size: (limit != u64::MAX).then_some(limit),
            qpack_blocked_streams: settings.qpack_blocked_streams,
            enable_connect_protocol: settings.enable_connect_protocol == 1,
            h3_datagram: settings.h3_datagram == 1,
            enable_webtransport: settings.enable_webtransport == 1,
            webtransport_max_sessions: settings.webtransport_max_sessions,
            wt_max_sessions: settings.wt_max_sessions,
            came: settings.came == 1,
        }
    }

    /// Returns the struct of the library, or `None` if a number is none of QUIC's: it is 2^62 or more.
    pub(crate) fn words(&self) -> Option<sys::PeerSettings> {
        let numbers = [
            self.qpack_max_table_capacity,
            self.max_field_section_size.unwrap_or(0),
            self.qpack_blocked_streams,
            self.webtransport_max_sessions,
            self.wt_max_sessions,
        ];
        let settings = sys::PeerSettings {
            qpack_max_table_capacity: self.qpack_max_table_capacity,
            max_field_section_size: self.max_field_section_size.unwrap_or(u64::MAX),
            qpack_blocked_streams: self.qpack_blocked_streams,
            webtransport_max_sessions: self.webtransport_max_sessions,
            wt_max_sessions: self.wt_max_sessions,
            enable_connect_protocol: self.enable_connect_protocol.into(),
            h3_datagram: self.h3_datagram.into(),
            enable_webtransport: self.enable_webtransport.into(),
            came: self.came.into(),
            reserved_half: 0,
            reserved: [0; 2],
        };
        numbers.iter().all(|number| *number < 1 << 62).then_some(settings)
    }
}
