//! The C calls as safe functions: the only unsafe code of this crate.
//!
//! What makes them safe is that each pointer comes from a reference or a slice whose length goes with
//! it, that Rust forbids a `&mut` to overlap anything, and that the library keeps no pointer. The
//! structs hold plain numbers: any values are valid for Rust, and the library rejects those that are
//! not valid for it. Whatever it returns is checked by slicing.
#![allow(unsafe_code)]

mod constants;
mod declarations;
mod room;
#[cfg(test)]
mod tests;

pub use self::constants::*;
use self::declarations::*;
pub use self::declarations::{
    Capsule, CapsuleReader, Connection, Control, Endpoint, Event, Field, Frame, Hold, PeerSettings,
    Reader, RequestBudget, Sending, Setting, Stream, StreamHeader,
};
pub use self::room::Room;
use self::room::{event, expect_ok, is_true, name};
use alloc::string::String;
use alloc::vec::Vec;

/// Appends what a call writes into the room that it is given, and returns the answer of the call. If
/// that is not `WT_OK`, the bytes are unchanged. `guess`: how many bytes it is likely to write.
fn append<F>(out: &mut Vec<u8>, guess: usize, mut call: F) -> i32
where
    F: FnMut(*mut u8, usize, &mut usize) -> i32,
{
    out.reserve(guess);
    loop {
        let room = out.spare_capacity_mut();
        let (size, mut used) = (room.len(), 0);
        match call(room.as_mut_ptr().cast(), size, &mut used) {
            WT_OK => {
                assert!(used <= size, "libwtransport wrote beyond its room");
                let length = out.len() + used;
                // SAFETY: the call wrote `used` bytes after those that there were, within the capacity.
                unsafe { out.set_len(length) };
                return WT_OK;
            }
            WT_BUFFER_TOO_SMALL => out.reserve(used),
            answer => return answer,
        }
    }
}

// SAFETY of every call below: the pointers are those of references and slices, with their lengths, for
// the time of the call; those that are written are of exclusive borrows, or of the room of `append`.

/// Defines functions that append what a call writes: `name(arguments) => call(what is passed), guess`.
macro_rules! writers {
    ($($name:ident($($argument:ident: $kind:ty),*) => $call:ident($($passed:expr),*), $guess:expr;)*) => {$(
        pub fn $name($($argument: $kind,)* out: &mut Vec<u8>) -> i32 {
            append(out, $guess, |out, room, used| unsafe { $call($($passed,)* out, room, used) })
        }
    )*};
}

/// The same for calls that say why they wrote nothing: the functions return their answer and, with
/// WT_REFUSED, the reason.
macro_rules! senders {
    ($($name:ident($($argument:ident: $kind:ty),*) => $call:ident($($passed:expr),*), $guess:expr;)*) => {$(
        pub fn $name($($argument: $kind,)* out: &mut Vec<u8>) -> (i32, u32) {
            let mut why = 0;
            let answer = append(out, $guess, |out, room, used| unsafe {
                $call($($passed,)* out, room, used, &mut why)
            });
            (answer, why)
        }
    )*};
}

writers! {
    varint_write(value: u64) => wt_varint_write(value), 8;
    stream_header_write(header: &StreamHeader) => wt_stream_header_write(header), 16;
    datagram_write(session: u64, payload: &[u8]) =>
        wt_datagram_write(session, payload.as_ptr(), payload.len()), payload.len() + 8;
    datagram_write_head(session: u64) => wt_datagram_write_head(session), 8;
    frame_write(kind: u64, payload: &[u8]) =>
        wt_frame_write(kind, payload.as_ptr(), payload.len()), payload.len() + 16;
    frame_write_head(kind: u64, length: u64) => wt_frame_write_head(kind, length), 16;
    session_frame_write(session: u64) => wt_session_frame_write(session), 16;
    settings_write(list: &[Setting]) => wt_settings_write(list.as_ptr(), list.len()), 64;
    fields_write(fields: &[Field], texts: &[u8]) =>
        wt_fields_write(fields.as_ptr(), fields.len(), texts.as_ptr(), texts.len()), texts.len() + 64;
    request_write(url: &[u8], fields: &[Field], texts: &[u8]) =>
        wt_request_write(url.as_ptr(), url.len(), fields.as_ptr(), fields.len(), texts.as_ptr(),
            texts.len()), texts.len() + url.len() + 64;
    response_write(status: u32, fields: &[Field], texts: &[u8]) =>
        wt_response_write(status, fields.as_ptr(), fields.len(), texts.as_ptr(), texts.len()),
        texts.len() + 64;
    close_write(code: u32, reason: &[u8]) =>
        wt_close_write(code, reason.as_ptr(), reason.len()), reason.len() + 16;
    goaway_write(side: u8, id: u64, last: &mut u64) => wt_goaway_write(side, id, last), 16;
}

senders! {
    control_settings(control: &mut Control, list: &[Setting]) =>
        wt_control_settings(control, list.as_ptr(), list.len()), 64;
    control_goaway(control: &mut Control, id: u64) => wt_control_goaway(control, id), 10;
    sending_headers(sending: &mut Sending, fields: &[Field], texts: &[u8]) =>
        wt_sending_headers(sending, fields.as_ptr(), fields.len(), texts.as_ptr(), texts.len()),
        texts.len() + 64;
    sending_trailers(sending: &mut Sending, fields: &[Field], texts: &[u8]) =>
        wt_sending_trailers(sending, fields.as_ptr(), fields.len(), texts.as_ptr(), texts.len()),
        texts.len() + 64;
    sending_data(sending: &mut Sending, length: u64) => wt_sending_data(sending, length), 9;
    sending_unidirectional(sending: &Sending) => wt_sending_unidirectional(sending), 10;
    sending_bidirectional(sending: &Sending) => wt_sending_bidirectional(sending), 10;
    sending_datagram(sending: &Sending) => wt_sending_datagram(sending), 8;
    sending_drain(sending: &Sending) => wt_sending_drain(sending), 7;
    sending_close(sending: &mut Sending, code: u32, reason: &[u8]) =>
        wt_sending_close(sending, code, reason.as_ptr(), reason.len()), reason.len() + 16;
}

pub fn version() -> u32 {
    unsafe { wt_version() }
}

pub fn varint_read(bytes: &[u8]) -> Option<(u64, usize)> {
    let (mut value, mut consumed) = (0, 0);
    match unsafe { wt_varint_read(bytes.as_ptr(), bytes.len(), &mut value, &mut consumed) } {
        WT_OK => Some((value, consumed)),
        _ => None,
    }
}

pub fn varint_size(value: u64) -> usize {
    unsafe { wt_varint_size(value) }
}

pub fn stream_header_read(bytes: &[u8]) -> (i32, StreamHeader, usize, u64) {
    let (mut header, mut consumed, mut code) = (StreamHeader::default(), 0, 0);
    let (start, length) = (bytes.as_ptr(), bytes.len());
    let answer =
        unsafe { wt_stream_header_read(start, length, &mut consumed, &mut header, &mut code) };
    (answer, header, consumed, code)
}

pub fn datagram_read(bytes: &[u8]) -> (i32, u64, usize, u64) {
    let (mut session, mut offset, mut code) = (0, 0, 0);
    let (start, length) = (bytes.as_ptr(), bytes.len());
    let answer = unsafe { wt_datagram_read(start, length, &mut session, &mut offset, &mut code) };
    (answer, session, offset, code)
}

pub fn reader_new(kind: u8) -> Reader {
    let mut reader = Reader::default();
    let answer = unsafe { wt_reader_new(kind, &mut reader) };
    expect_ok(answer);
    reader
}

pub fn read_frame(reader: &mut Reader, bytes: &[u8]) -> (i32, Frame, usize, u64) {
    let (mut frame, mut consumed, mut code) = (Frame::default(), 0, 0);
    let (start, length) = (bytes.as_ptr(), bytes.len());
    let answer =
        unsafe { wt_read_frame(reader, start, length, &mut consumed, &mut frame, &mut code) };
    (answer, frame, consumed, code)
}

pub fn read_end(reader: &Reader, rest: &[u8]) -> (i32, u64) {
    let mut code = 0;
    let answer = unsafe { wt_read_end(reader, rest.as_ptr(), rest.len(), &mut code) };
    (answer, code)
}

/// Reads settings into an array: the answer, their number or the room needed, and the error code.
pub fn settings_read(payload: &[u8], settings: &mut [Setting]) -> (i32, usize, u64) {
    let (mut count, mut code) = (0, 0);
    let (start, length) = (payload.as_ptr(), payload.len());
    let (to, room) = (settings.as_mut_ptr(), settings.len());
    let answer = unsafe { wt_settings_read(start, length, to, room, &mut count, &mut code) };
    (answer, count, code)
}

pub fn setting_name(id: u64) -> Option<String> {
    name(|out, room, used| unsafe { wt_setting_name(id, out, room, used) })
}

/// Reads a field section into arrays: the answer, the number of lines and of bytes that there are or
/// that are needed, and the error code.
pub fn fields_read(
    section: &[u8],
    fields: &mut [Field],
    texts: &mut [u8],
) -> (i32, usize, usize, u64) {
    let (mut count, mut used, mut code) = (0, 0, 0);
    #[rustfmt::skip] // a pointer with its length on each line
    let answer = unsafe {
        wt_fields_read(
            section.as_ptr(), section.len(),
            fields.as_mut_ptr(), fields.len(),
            texts.as_mut_ptr(), texts.len(),
            &mut count, &mut used, &mut code,
        )
    };
    (answer, count, used, code)
}

/// Appends the authority and the path of a request: the answer, the size of the authority, and the
/// error code.
pub fn request_read(section: &[u8], out: &mut Vec<u8>) -> (i32, usize, u64) {
    let (mut authority, mut code) = (0, 0);
    let (start, length) = (section.as_ptr(), section.len());
    let answer = append(out, length, |out, room, used| unsafe {
        wt_request_read(start, length, out, room, &mut authority, used, &mut code)
    });
    (answer, authority, code)
}

pub fn request_check(section: &[u8]) -> (i32, i32, u64) {
    let (mut fault, mut code) = (0, 0);
    let (start, length) = (section.as_ptr(), section.len());
    let answer = unsafe { wt_request_check(start, length, &mut fault, &mut code) };
    (answer, fault, code)
}

pub fn request_fault_name(fault: i32) -> Option<String> {
    name(|out, room, used| unsafe { wt_request_fault_name(fault, out, room, used) })
}

pub fn response_read(section: &[u8]) -> (i32, u16, u64) {
    let (mut status, mut code) = (0, 0);
    let (start, length) = (section.as_ptr(), section.len());
    let answer = unsafe { wt_response_read(start, length, &mut status, &mut code) };
    (answer, status, code)
}

pub fn capsule_read(reader: &mut CapsuleReader, bytes: &[u8]) -> (i32, Capsule, usize, u64) {
    let (mut capsule, mut consumed, mut code) = (Capsule::default(), 0, 0);
    let (start, length) = (bytes.as_ptr(), bytes.len());
    let answer =
        unsafe { wt_capsule_read(reader, start, length, &mut consumed, &mut capsule, &mut code) };
    (answer, capsule, consumed, code)
}

pub fn capsule_end(reader: &CapsuleReader, rest: &[u8]) -> (i32, u64) {
    let mut code = 0;
    let answer = unsafe { wt_capsule_end(reader, rest.as_ptr(), rest.len(), &mut code) };
    (answer, code)
}

pub fn close_read(value: &[u8]) -> (i32, u32, u64) {
    let (mut app_error_code, mut code) = (0, 0);
    let (start, length) = (value.as_ptr(), value.len());
    let answer = unsafe { wt_close_read(start, length, &mut app_error_code, &mut code) };
    (answer, app_error_code, code)
}

pub fn code_name(code: u64) -> Option<String> {
    name(|out, room, used| unsafe { wt_code_name(code, out, room, used) })
}

pub fn code_scope(code: u64) -> i32 {
    unsafe { wt_code_scope(code) }
}

pub fn application_code_to_http3(code: u32) -> u64 {
    unsafe { wt_application_code_to_http3(code) }
}

pub fn application_code_from_http3(number: u64) -> Option<u32> {
    let mut code = 0;
    match unsafe { wt_application_code_from_http3(number, &mut code) } {
        WT_OK => Some(code),
        _ => None,
    }
}

// The calls of connections.

pub fn connection_new(endpoint: &Endpoint) -> Option<Connection> {
    let mut connection = Connection::default();
    match unsafe { wt_connection_new(WT_ABI, endpoint, &mut connection) } {
        WT_OK => Some(connection),
        _ => None,
    }
}

/// Returns the state of the connection of a client that resumes a session of TLS.
pub fn connection_resuming(endpoint: &Endpoint, remembered: &PeerSettings) -> Option<Connection> {
    let mut connection = Connection::default();
    match unsafe { wt_connection_resuming(WT_ABI, endpoint, remembered, &mut connection) } {
        WT_OK => Some(connection),
        _ => None,
    }
}

pub fn connection_settings(connection: &Connection) -> PeerSettings {
    let mut settings = PeerSettings::default();
    expect_ok(unsafe { wt_connection_settings(connection, &mut settings) });
    settings
}

pub fn early_data_refused(connection: &mut Connection) {
    expect_ok(unsafe { wt_early_data_refused(connection) });
}

pub fn connection_allows_sessions(connection: &Connection) -> bool {
    is_true(unsafe { wt_connection_allows_sessions(connection) })
}

pub fn connection_unprocessed(connection: &Connection, id: u64) -> bool {
    is_true(unsafe { wt_connection_unprocessed(connection, id) })
}

pub fn stream_accept(connection: &mut Connection, id: u64) -> Stream {
    let mut stream = Stream::default();
    expect_ok(unsafe { wt_stream_accept(connection, id, &mut stream) });
    stream
}

pub fn stream_of_request(connection: &Connection, asked: u32) -> Stream {
    let mut stream = Stream::default();
    expect_ok(unsafe { wt_stream_of_request(connection, asked, &mut stream) });
    stream
}

pub fn stream_of_session(session: u64) -> Stream {
    let mut stream = Stream::default();
    expect_ok(unsafe { wt_stream_of_session(session, &mut stream) });
    stream
}

pub fn receive(
    connection: &mut Connection,
    stream: &mut Stream,
    bytes: &[u8],
    fin: bool,
    room: Room<'_>,
) -> (i32, Event) {
    let mut event = Event::default();
    #[rustfmt::skip]
    let answer = unsafe {
        wt_receive(
            connection, stream,
            room.held.as_mut_ptr(), room.held.len(),
            core::ptr::null_mut(), 0,
            bytes.as_ptr(), bytes.len(),
            fin.into(), &mut event,
            room.fields.as_mut_ptr(), room.fields.len(),
            room.out.as_mut_ptr(), room.out.len(),
        )
    };
    (answer, event)
}

/// Reads a chunk of a stream whose bytes come once. `bytes` holds what is left of it, as `hold` says.
pub fn receive_pushed(
    connection: &mut Connection,
    stream: &mut Stream,
    (hold, bytes): (&mut Hold, &mut [u8]),
    chunk: &[u8],
    fin: bool,
    room: Room<'_>,
) -> (i32, Event) {
    let mut event = Event::default();
    #[rustfmt::skip]
    let answer = unsafe {
        wt_receive_pushed(
            connection, stream,
            room.held.as_mut_ptr(), room.held.len(),
            core::ptr::null_mut(), 0,
            hold, bytes.as_mut_ptr(), bytes.len(),
            chunk.as_ptr(), chunk.len(),
            fin.into(), &mut event,
            room.fields.as_mut_ptr(), room.fields.len(),
            room.out.as_mut_ptr(), room.out.len(),
        )
    };
    (answer, event)
}

pub fn stream_answer(stream: &mut Stream, status: u32) {
    expect_ok(unsafe { wt_stream_answer(stream, status) });
}

pub fn session_known(connection: &Connection, session: u64, its: &[Stream]) -> u32 {
    let mut known = 0;
    expect_ok(unsafe {
        wt_session_known(connection, session, its.as_ptr(), its.len(), &mut known)
    });
    known
}

pub fn stream_join(connection: &mut Connection, stream: &mut Stream, known: u32) -> Event {
    event(|event| unsafe { wt_stream_join(connection, stream, known, event) })
}

pub fn stream_waits(stream: &Stream) -> (u32, u64) {
    let (mut waits, mut session) = (0, 0);
    expect_ok(unsafe { wt_stream_waits(stream, &mut waits, &mut session) });
    (waits, session)
}

pub fn stream_belongs(stream: &Stream) -> Option<u64> {
    let (mut belongs, mut session) = (0, 0);
    expect_ok(unsafe { wt_stream_belongs(stream, &mut belongs, &mut session) });
    (belongs == 1).then_some(session)
}

pub fn stream_reset(connection: &mut Connection, stream: &mut Stream) -> Event {
    event(|event| unsafe { wt_stream_reset(connection, stream, event) })
}

pub fn stream_stop(connection: &mut Connection, stream: &mut Stream) -> Event {
    event(|event| unsafe { wt_stream_stop(connection, stream, event) })
}

pub fn stream_abandon(connection: &mut Connection, stream: &mut Stream) -> Event {
    event(|event| unsafe { wt_stream_abandon(connection, stream, event) })
}

pub fn stream_overflow(connection: &mut Connection, stream: &mut Stream) -> Event {
    event(|event| unsafe { wt_stream_overflow(connection, stream, event) })
}

pub fn stopped(connection: &mut Connection, purpose: u32) -> (i32, u64) {
    let mut code = 0;
    let answer = unsafe { wt_stopped(connection, purpose, &mut code) };
    (answer, code)
}

pub fn datagram_receive(connection: &mut Connection, bytes: &[u8]) -> Event {
    let (start, length) = (bytes.as_ptr(), bytes.len());
    event(|event| unsafe { wt_datagram_receive(connection, start, length, event) })
}

pub fn datagram_use(known: u32) -> i32 {
    unsafe { wt_datagram_use(known) }
}

pub fn request_answered(budget: &mut RequestBudget) {
    expect_ok(unsafe { wt_request_answered(budget) });
}

/// Counts a request that was reset before its answer: returns an error code if that is one too many.
pub fn request_reset(budget: &mut RequestBudget) -> Option<u64> {
    let mut code = 0;
    match unsafe { wt_request_reset(budget, &mut code) } {
        WT_OK => None,
        WT_ERROR => Some(code),
        answer => panic!("libwtransport returned {answer}"),
    }
}

// What is sent. A call returns its answer, and with WT_REFUSED the reason.

#[cfg(test)]
pub fn send_reason_name(why: u32) -> Option<String> {
    name(|out, room, used| unsafe { wt_send_reason_name(why, out, room, used) })
}

pub fn control_new(connection: &Connection) -> Control {
    let mut control = Control::default();
    expect_ok(unsafe { wt_control_new(connection, &mut control) });
    control
}

pub fn sending_request(connection: &Connection, id: u64) -> (i32, Sending) {
    let (mut sending, mut why) = (Sending::default(), 0);
    (unsafe { wt_sending_request(connection, id, &mut sending, &mut why) }, sending)
}

pub fn sending_response(connection: &Connection, id: u64, asked: u32) -> (i32, Sending) {
    let (mut sending, mut why) = (Sending::default(), 0);
    (unsafe { wt_sending_response(connection, id, asked, &mut sending, &mut why) }, sending)
}

pub fn sending_sent(sending: &mut Sending, length: u64) -> (i32, u32) {
    let mut why = 0;
    (unsafe { wt_sending_sent(sending, length, &mut why) }, why)
}

pub fn sending_owed(sending: &Sending) -> u64 {
    let mut owed = 0;
    expect_ok(unsafe { wt_sending_owed(sending, &mut owed) });
    owed
}

pub fn sending_finish(sending: &mut Sending) -> (i32, u32) {
    let mut why = 0;
    (unsafe { wt_sending_finish(sending, &mut why) }, why)
}

pub fn sending_connected(sending: &mut Sending) -> (i32, u32) {
    let mut why = 0;
    (unsafe { wt_sending_connected(sending, &mut why) }, why)
}
