//! What the calls of `sys` write to, and what their answers mean.
use super::{append, Event, Field, WT_OK};
use alloc::string::String;
use alloc::vec::Vec;

/// Where a call of `receive` writes.
pub struct Room<'a> {
    pub held: &'a mut [u8],
    pub fields: &'a mut [Field],
    pub out: &'a mut [u8],
}

/// Returns the name that a call writes, or `None` if there is none.
pub fn name<F>(call: F) -> Option<String>
where
    F: Fn(*mut i8, usize, &mut usize) -> i32,
{
    let mut text = Vec::new();
    match append(&mut text, 64, |out, room, used| call(out.cast(), room, used)) {
        WT_OK => String::from_utf8(text).ok(),
        _ => None,
    }
}

/// Panics if the library rejects a state that it made.
pub fn expect_ok(answer: i32) {
    assert!(answer == WT_OK, "libwtransport rejected a state of its own: {answer}");
}

/// Returns the event that a call writes, which cannot fail for states that the library made.
pub fn event(call: impl FnOnce(&mut Event) -> i32) -> Event {
    let mut event = Event::default();
    expect_ok(call(&mut event));
    event
}

pub fn is_true(answer: i32) -> bool {
    assert!(answer >= 0, "libwtransport rejected a state of its own");
    answer == 1
}
