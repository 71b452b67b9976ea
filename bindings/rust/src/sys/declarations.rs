//! The structs and the calls of the header. A test compares them with `c/abi.list`.

#[repr(C)]
#[derive(Clone, Copy, Default)]
pub struct StreamHeader {
    pub kind: u64,
    pub session: u64,
}

#[repr(C)]
#[derive(Clone, Copy, Debug, Default, PartialEq, Eq)]
pub struct Reader {
    pub kind: u8,
    pub first: u8,
    pub skip_remaining: u64,
}

#[repr(C)]
#[derive(Clone, Copy, Default)]
pub struct Frame {
    pub kind: u64,
    pub session: u64,
    pub offset: usize,
    pub length: usize,
}

#[repr(C)]
#[derive(Clone, Copy, Default)]
pub struct Setting {
    pub id: u64,
    pub value: u64,
}

#[repr(C)]
#[derive(Clone, Copy, Debug, Default, PartialEq, Eq)]
pub struct Field {
    pub name_offset: usize,
    pub name_length: usize,
    pub value_offset: usize,
    pub value_length: usize,
}

#[repr(C)]
#[derive(Clone, Copy, Debug, Default, PartialEq, Eq)]
pub struct CapsuleReader {
    pub skip_remaining: u64,
}

#[repr(C)]
#[derive(Clone, Copy, Default)]
pub struct Capsule {
    pub kind: u64,
    pub offset: usize,
    pub length: usize,
}

#[repr(C)]
#[derive(Clone, Copy, Debug, Default, PartialEq, Eq)]
pub struct Connection {
    pub words: [u64; 32],
}

#[repr(C)]
#[derive(Clone, Copy, Debug, Default, PartialEq, Eq)]
pub struct Stream {
    pub words: [u64; 26],
}

#[repr(C)]
#[derive(Clone, Copy, Default)]
pub struct Endpoint {
    pub side: u8,
    pub webtransport: u8,
    pub datagrams: u8,
    pub extended: u8,
    pub max_section: u32,
    pub max_fields: u64,
    pub max_datagram: u64,
    pub reserved: [u64; 5],
}

#[repr(C)]
#[derive(Clone, Copy, Default)]
pub struct Event {
    pub kind: u32,
    pub detail: u32,
    pub number: u64,
    pub consumed: usize,
    pub offset: usize,
    pub length: usize,
    pub fields: usize,
    pub used: usize,
    pub held: usize,
    pub reserved: [u64; 4],
}

#[repr(C)]
#[derive(Clone, Copy, Default)]
pub struct PeerSettings {
    pub qpack_max_table_capacity: u64,
    pub max_field_section_size: u64,
    pub qpack_blocked_streams: u64,
    pub webtransport_max_sessions: u64,
    pub wt_max_sessions: u64,
    pub enable_connect_protocol: u8,
    pub h3_datagram: u8,
    pub enable_webtransport: u8,
    pub came: u8,
    pub reserved_half: u32,
    pub reserved: [u64; 2],
}

#[repr(C)]
#[derive(Clone, Copy, Debug, Default, PartialEq, Eq)]
pub struct Hold {
    pub start: usize,
    pub end: usize,
    pub taken: usize,
    pub fin: u8,
    pub in_array: u8,
    pub reserved: [u8; 6],
}

#[repr(C)]
#[derive(Clone, Copy, Debug, Default, PartialEq, Eq)]
pub struct RequestBudget {
    pub excess: u64,
    pub answers: u64,
    pub resets: u64,
}

#[repr(C)]
#[derive(Clone, Copy, Debug, Default, PartialEq, Eq)]
pub struct Sending {
    pub words: [u64; 12],
}

#[repr(C)]
#[derive(Clone, Copy, Debug, Default, PartialEq, Eq)]
pub struct Control {
    pub words: [u64; 8],
}

#[rustfmt::skip] // a line for each call, which a test reads
extern "C" {
    pub fn wt_version() -> u32;
    pub fn wt_varint_read(bytes: *const u8, length: usize, value: *mut u64, consumed: *mut usize) -> i32;
    pub fn wt_varint_write(value: u64, out: *mut u8, room: usize, used: *mut usize) -> i32;
    pub fn wt_varint_size(value: u64) -> usize;
    pub fn wt_stream_header_read(bytes: *const u8, length: usize, consumed: *mut usize, header: *mut StreamHeader, error_code: *mut u64) -> i32;
    pub fn wt_stream_header_write(header: *const StreamHeader, out: *mut u8, room: usize, used: *mut usize) -> i32;
    pub fn wt_datagram_read(bytes: *const u8, length: usize, session: *mut u64, offset: *mut usize, error_code: *mut u64) -> i32;
    pub fn wt_datagram_write(session: u64, payload: *const u8, length: usize, out: *mut u8, room: usize, used: *mut usize) -> i32;
    pub fn wt_datagram_write_head(session: u64, out: *mut u8, room: usize, used: *mut usize) -> i32;
    pub fn wt_reader_new(kind: u8, reader: *mut Reader) -> i32;
    pub fn wt_read_frame(reader: *mut Reader, bytes: *const u8, length: usize, consumed: *mut usize, frame: *mut Frame, error_code: *mut u64) -> i32;
    pub fn wt_read_end(reader: *const Reader, rest: *const u8, length: usize, error_code: *mut u64) -> i32;
    pub fn wt_frame_write(kind: u64, payload: *const u8, length: usize, out: *mut u8, room: usize, used: *mut usize) -> i32;
    pub fn wt_frame_write_head(kind: u64, length: u64, out: *mut u8, room: usize, used: *mut usize) -> i32;
    pub fn wt_session_frame_write(session: u64, out: *mut u8, room: usize, used: *mut usize) -> i32;
    pub fn wt_settings_read(payload: *const u8, length: usize, settings: *mut Setting, room: usize, count: *mut usize, error_code: *mut u64) -> i32;
    pub fn wt_settings_write(settings: *const Setting, count: usize, out: *mut u8, room: usize, used: *mut usize) -> i32;
    pub fn wt_setting_name(id: u64, out: *mut i8, room: usize, used: *mut usize) -> i32;
    pub fn wt_fields_read(section: *const u8, length: usize, fields: *mut Field, fields_room: usize, texts: *mut u8, texts_room: usize, count: *mut usize, used: *mut usize, error_code: *mut u64) -> i32;
    pub fn wt_fields_write(fields: *const Field, count: usize, texts: *const u8, texts_length: usize, out: *mut u8, room: usize, used: *mut usize) -> i32;
    pub fn wt_request_write(url: *const u8, url_length: usize, fields: *const Field, count: usize, texts: *const u8, texts_length: usize, out: *mut u8, room: usize, used: *mut usize) -> i32;
    pub fn wt_request_read(section: *const u8, length: usize, out: *mut u8, room: usize, authority: *mut usize, used: *mut usize, error_code: *mut u64) -> i32;
    pub fn wt_request_check(section: *const u8, length: usize, fault: *mut i32, error_code: *mut u64) -> i32;
    pub fn wt_request_fault_name(fault: i32, out: *mut i8, room: usize, used: *mut usize) -> i32;
    pub fn wt_response_write(status: u32, fields: *const Field, count: usize, texts: *const u8, texts_length: usize, out: *mut u8, room: usize, used: *mut usize) -> i32;
    pub fn wt_response_read(section: *const u8, length: usize, status: *mut u16, error_code: *mut u64) -> i32;
    pub fn wt_capsule_read(reader: *mut CapsuleReader, bytes: *const u8, length: usize, consumed: *mut usize, capsule: *mut Capsule, error_code: *mut u64) -> i32;
    pub fn wt_capsule_end(reader: *const CapsuleReader, rest: *const u8, length: usize, error_code: *mut u64) -> i32;
    pub fn wt_close_read(value: *const u8, length: usize, app_error_code: *mut u32, error_code: *mut u64) -> i32;
    pub fn wt_close_write(app_error_code: u32, reason: *const u8, length: usize, out: *mut u8, room: usize, used: *mut usize) -> i32;
    pub fn wt_code_name(code: u64, out: *mut i8, room: usize, used: *mut usize) -> i32;
    pub fn wt_code_scope(code: u64) -> i32;
    pub fn wt_application_code_to_http3(code: u32) -> u64;
    pub fn wt_application_code_from_http3(number: u64, code: *mut u32) -> i32;
    pub fn wt_connection_new(abi: u32, endpoint: *const Endpoint, connection: *mut Connection) -> i32;
    pub fn wt_connection_settings(connection: *const Connection, settings: *mut PeerSettings) -> i32;
    pub fn wt_connection_resuming(abi: u32, endpoint: *const Endpoint, remembered: *const PeerSettings, connection: *mut Connection) -> i32;
    pub fn wt_early_data_refused(connection: *mut Connection) -> i32;
    pub fn wt_connection_allows_sessions(connection: *const Connection) -> i32;
    pub fn wt_connection_unprocessed(connection: *const Connection, id: u64) -> i32;
    pub fn wt_stream_accept(connection: *mut Connection, id: u64, stream: *mut Stream) -> i32;
    pub fn wt_stream_of_request(connection: *const Connection, asked: u32, stream: *mut Stream) -> i32;
    pub fn wt_stream_of_session(session: u64, stream: *mut Stream) -> i32;
    pub fn wt_receive(connection: *mut Connection, stream: *mut Stream, held: *mut u8, held_room: usize, table: *mut u8, table_length: usize, bytes: *const u8, length: usize, fin: u8, event: *mut Event, fields: *mut Field, fields_room: usize, out: *mut u8, out_room: usize) -> i32;
    pub fn wt_receive_pushed(connection: *mut Connection, stream: *mut Stream, held: *mut u8, held_room: usize, table: *mut u8, table_length: usize, hold: *mut Hold, room: *mut u8, room_length: usize, chunk: *const u8, length: usize, fin: u8, event: *mut Event, fields: *mut Field, fields_room: usize, out: *mut u8, out_room: usize) -> i32;
    pub fn wt_stream_answer(stream: *mut Stream, status: u32) -> i32;
    pub fn wt_session_known(connection: *const Connection, session: u64, its: *const Stream, count: usize, known: *mut u32) -> i32;
    pub fn wt_stream_join(connection: *mut Connection, stream: *mut Stream, known: u32, event: *mut Event) -> i32;
    pub fn wt_stream_waits(stream: *const Stream, waits: *mut u32, session: *mut u64) -> i32;
    pub fn wt_stream_belongs(stream: *const Stream, belongs: *mut u32, session: *mut u64) -> i32;
    pub fn wt_stream_reset(connection: *mut Connection, stream: *mut Stream, event: *mut Event) -> i32;
    pub fn wt_stream_stop(connection: *mut Connection, stream: *mut Stream, event: *mut Event) -> i32;
    pub fn wt_stream_abandon(connection: *mut Connection, stream: *mut Stream, event: *mut Event) -> i32;
    pub fn wt_stream_overflow(connection: *mut Connection, stream: *mut Stream, event: *mut Event) -> i32;
    pub fn wt_stopped(connection: *mut Connection, purpose: u32, error_code: *mut u64) -> i32;
    pub fn wt_datagram_receive(connection: *mut Connection, bytes: *const u8, length: usize, event: *mut Event) -> i32;
    pub fn wt_datagram_use(known: u32) -> i32;
    pub fn wt_goaway_write(side: u8, id: u64, last: *mut u64, out: *mut u8, room: usize, used: *mut usize) -> i32;
    pub fn wt_request_answered(budget: *mut RequestBudget) -> i32;
    pub fn wt_request_reset(budget: *mut RequestBudget, error_code: *mut u64) -> i32;
    #[cfg(test)]
    pub fn wt_send_reason_name(why: u32, out: *mut i8, room: usize, used: *mut usize) -> i32;
    pub fn wt_control_new(connection: *const Connection, control: *mut Control) -> i32;
    pub fn wt_control_settings(control: *mut Control, settings: *const Setting, count: usize, out: *mut u8, room: usize, used: *mut usize, why: *mut u32) -> i32;
    pub fn wt_control_goaway(control: *mut Control, id: u64, out: *mut u8, room: usize, used: *mut usize, why: *mut u32) -> i32;
    pub fn wt_sending_request(connection: *const Connection, id: u64, sending: *mut Sending, why: *mut u32) -> i32;
    pub fn wt_sending_response(connection: *const Connection, id: u64, asked: u32, sending: *mut Sending, why: *mut u32) -> i32;
    pub fn wt_sending_headers(sending: *mut Sending, fields: *const Field, fields_length: usize, texts: *const u8, texts_length: usize, out: *mut u8, room: usize, used: *mut usize, why: *mut u32) -> i32;
    pub fn wt_sending_data(sending: *mut Sending, length: u64, out: *mut u8, room: usize, used: *mut usize, why: *mut u32) -> i32;
    pub fn wt_sending_sent(sending: *mut Sending, length: u64, why: *mut u32) -> i32;
    pub fn wt_sending_owed(sending: *const Sending, owed: *mut u64) -> i32;
    pub fn wt_sending_trailers(sending: *mut Sending, fields: *const Field, fields_length: usize, texts: *const u8, texts_length: usize, out: *mut u8, room: usize, used: *mut usize, why: *mut u32) -> i32;
    pub fn wt_sending_finish(sending: *mut Sending, why: *mut u32) -> i32;
    pub fn wt_sending_connected(sending: *mut Sending, why: *mut u32) -> i32;
    pub fn wt_sending_unidirectional(sending: *const Sending, out: *mut u8, room: usize, used: *mut usize, why: *mut u32) -> i32;
    pub fn wt_sending_bidirectional(sending: *const Sending, out: *mut u8, room: usize, used: *mut usize, why: *mut u32) -> i32;
    pub fn wt_sending_datagram(sending: *const Sending, out: *mut u8, room: usize, used: *mut usize, why: *mut u32) -> i32;
    pub fn wt_sending_drain(sending: *const Sending, out: *mut u8, room: usize, used: *mut usize, why: *mut u32) -> i32;
    pub fn wt_sending_close(sending: *mut Sending, code: u32, reason: *const u8, length: usize, out: *mut u8, room: usize, used: *mut usize, why: *mut u32) -> i32;
}
