//! Compares the declarations with the list of the library's binary interface, `c/abi.list`. The list may have more: a
//! version of the library adds calls, structs and constants.
use super::*;
use core::mem::size_of;
use std::collections::BTreeMap;
use std::format;
use std::string::{String, ToString};
use std::vec::Vec;

const LIST: &str = include_str!("../../../../c/abi.list");

/// Returns the lines of the list of one kind, without the version and the kind.
fn lines(kind: &str) -> Vec<&'static str> {
    let all = LIST.lines().filter(|line| !line.starts_with('#'));
    let after_version = all.filter_map(|line| line.split_once(' '));
    let found = after_version.filter_map(|(_, line)| line.strip_prefix(kind));
    let found: Vec<_> = found.map(str::trim).collect();
    assert!(!found.is_empty());
    found
}

#[test]
fn constants_are_those_of_the_header() {
    let split = lines("constant ").into_iter().map(|line| line.split_once(' ').unwrap());
    let listed: BTreeMap<&str, i64> =
        split.map(|(name, value)| (name, value.parse().unwrap())).collect();
    for (name, value) in ALL {
        assert_eq!(listed.get(name), Some(value), "{name}");
    }
}

/// Returns the type of C for one of Rust, as the list has it.
fn c_type(rust: &str) -> String {
    let (pointer, name) = match (rust.strip_prefix("*const "), rust.strip_prefix("*mut ")) {
        (Some(name), _) => (("const ", " *"), name),
        (_, Some(name)) => (("", " *"), name),
        _ => (("", ""), rust),
    };
    let name = match name {
        "u8" | "u16" | "u32" | "u64" => format!("uint{}_t", &name[1..]),
        "usize" => "size_t".into(),
        "i32" => "int".into(),
        "i8" => "char".into(),
        name => format!("wt{}", in_words(name)),
    };
    format!("{}{name}{}", pointer.0, pointer.1)
}

/// Returns a name such as `CapsuleReader` as `_capsule_reader`.
fn in_words(name: &str) -> String {
    let mut words = String::new();
    for letter in name.chars() {
        if letter.is_uppercase() {
            words.push('_');
        }
        words.extend(letter.to_lowercase());
    }
    words
}

/// Returns a declaration such as `fn wt_version() -> u32;` as a prototype of the list.
fn prototype(line: &str) -> String {
    let line = line.trim().strip_prefix("pub fn ").unwrap().strip_suffix(';').unwrap();
    let (head, result) = line.rsplit_once(" -> ").unwrap();
    let (name, arguments) = head.strip_suffix(')').unwrap().split_once('(').unwrap();
    let types = arguments.split(", ").filter(|argument| !argument.is_empty());
    let types: Vec<_> = types.map(|one| c_type(one.split_once(": ").unwrap().1)).collect();
    let types = if types.is_empty() { "void".to_string() } else { types.join(", ") };
    format!("{} {name}({types})", c_type(result))
}

#[test]
fn calls_are_those_of_the_header() {
    let declared = include_str!("declarations.rs").lines();
    let declared = declared.filter(|line| line.trim().starts_with("pub fn wt_"));
    let declared: Vec<_> = declared.map(prototype).collect();
    let listed = lines("call ");
    assert!(declared.len() > 50);
    for call in declared {
        assert!(listed.iter().any(|one| *one == call), "{call}");
    }
}

/// Describes a struct as the list does: its size, and each field with its offset.
macro_rules! layout {
    ($name:ident $c_name:literal { $($field:ident $kind:literal),* }) => {{
        let value = $name::default();
        let start = core::ptr::addr_of!(value) as usize;
        let mut text = format!("{} {}:", $c_name, size_of::<$name>());
        $({
            let offset = core::ptr::addr_of!(value.$field) as usize - start;
            let kind: &str = $kind;
            let (kind, array) = kind.split_once('[').map_or((kind, String::new()), |(kind, rest)| {
                (kind, format!("[{rest}"))
            });
            let name = stringify!($field);
            text += &format!(" {kind} {name}{array} {offset};");
        })*
        text
    }};
}

#[test]
fn structs_are_those_of_the_header() {
    let declared = [
        layout!(StreamHeader "wt_stream_header" { kind "uint64_t", session "uint64_t" }),
        layout!(Reader "wt_reader" { kind "uint8_t", first "uint8_t", skip_remaining "uint64_t" }),
        layout!(Frame "wt_frame" {
            kind "uint64_t", session "uint64_t", offset "size_t", length "size_t" }),
        layout!(Setting "wt_setting" { id "uint64_t", value "uint64_t" }),
        layout!(Field "wt_field" { name_offset "size_t", name_length "size_t",
            value_offset "size_t", value_length "size_t" }),
        layout!(CapsuleReader "wt_capsule_reader" { skip_remaining "uint64_t" }),
        layout!(Capsule "wt_capsule" { kind "uint64_t", offset "size_t", length "size_t" }),
        layout!(Connection "wt_connection" { words "uint64_t[32]" }),
        layout!(Stream "wt_stream" { words "uint64_t[26]" }),
        layout!(Endpoint "wt_endpoint" { side "uint8_t", webtransport "uint8_t",
            datagrams "uint8_t", extended "uint8_t", max_section "uint32_t",
            max_fields "uint64_t", max_datagram "uint64_t", reserved "uint64_t[5]" }),
        layout!(Event "wt_event" { kind "uint32_t", detail "uint32_t", number "uint64_t",
            consumed "size_t", offset "size_t", length "size_t", fields "size_t", used "size_t",
            held "size_t", reserved "uint64_t[4]" }),
        layout!(PeerSettings "wt_peer_settings" { qpack_max_table_capacity "uint64_t",
            max_field_section_size "uint64_t", qpack_blocked_streams "uint64_t",
            webtransport_max_sessions "uint64_t", wt_max_sessions "uint64_t",
            enable_connect_protocol "uint8_t", h3_datagram "uint8_t",
            enable_webtransport "uint8_t", came "uint8_t", reserved_half "uint32_t",
            reserved "uint64_t[2]" }),
        layout!(Hold "wt_hold" { start "size_t", end "size_t", taken "size_t", fin "uint8_t",
            in_array "uint8_t", reserved "uint8_t[6]" }),
        layout!(RequestBudget "wt_request_budget" { excess "uint64_t", answers "uint64_t",
            resets "uint64_t" }),
        layout!(Sending "wt_sending" { words "uint64_t[12]" }),
        layout!(Control "wt_control" { words "uint64_t[8]" }),
    ];
    // `type` is no name of Rust
    let listed: Vec<String> = lines("struct ")
        .iter()
        .map(|line| line.replace("uint64_t type", "uint64_t kind"))
        .collect();
    for layout in declared {
        assert!(listed.contains(&layout), "{layout}");
    }
}

#[test]
fn the_library_is_of_this_version() {
    let mut parts = env!("CARGO_PKG_VERSION").split('.').map(|part| part.parse::<u32>().unwrap());
    let mut part = || parts.next().unwrap();
    assert_eq!(version(), part() << 16 | part() << 8 | part());
}
