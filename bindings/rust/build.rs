//! Finds libwtransport: in the folder WTRANSPORT_LIB_DIR, or by pkg-config.
//!
//! WTRANSPORT_STATIC=1 links the archive, and WTRANSPORT_STATIC=0 the shared library. Otherwise the
//! shared library is linked, unless the folder has the archive alone. With WTRANSPORT_NO_LINK=1, for
//! `cargo doc` and `cargo check`, it looks for none.
use std::env;
use std::path::Path;
use std::process::{exit, Command};

fn main() {
    let names =
        ["WTRANSPORT_LIB_DIR", "WTRANSPORT_STATIC", "WTRANSPORT_NO_LINK", "PKG_CONFIG_PATH"];
    for name in names {
        println!("cargo:rerun-if-env-changed={name}");
    }
    println!("cargo:rerun-if-changed=build.rs");
    let links_nothing = env::var("WTRANSPORT_NO_LINK").map_or(false, |value| value != "0");
    if links_nothing || env::var_os("DOCS_RS").is_some() {
        return;
    }
    let wanted = env::var("WTRANSPORT_STATIC").ok().map(|value| value != "0");
    match env::var("WTRANSPORT_LIB_DIR") {
        Ok(folder) => link_folder(&folder, wanted),
        Err(_) => link_installed(wanted),
    }
}

/// Links the library of a folder.
fn link_folder(folder: &str, wanted: Option<bool>) {
    let has = |file: &str| Path::new(folder).join(file).is_file();
    let archive = wanted.unwrap_or(!has("libwtransport.so"));
    let file = if archive { "libwtransport.a" } else { "libwtransport.so" };
    if !has(file) {
        fail(&format!("there is no {file} in WTRANSPORT_LIB_DIR, {folder}"));
    }
    println!("cargo:rerun-if-changed={folder}/{file}");
    search(folder);
    link(archive);
}

/// Links the library that pkg-config finds: one with the soname of these declarations, whose number is the
/// first part of its version.
fn link_installed(wanted: Option<bool>) {
    let flags = match pkg_config(&["--libs-only-L", "wtransport >= 0.8", "wtransport < 1"]) {
        Some(flags) => flags,
        None => fail(
            "pkg-config finds no libwtransport from 0.8 on, below 1: install it (libwtransport-dev, or \
             c/install in Vesgrauf's repository), or name its folder in WTRANSPORT_LIB_DIR; `cargo doc` and \
             `cargo check` need none with WTRANSPORT_NO_LINK=1",
        ),
    };
    // a library in a folder of the system has no flag, and one that is not installed no variable
    for folder in flags.split_whitespace().filter_map(|flag| flag.strip_prefix("-L")) {
        search(folder);
    }
    if let Some(folder) = pkg_config(&["--variable=libdir", "wtransport"]) {
        search(folder.trim());
    }
    link(wanted.unwrap_or(false));
}

fn search(folder: &str) {
    if !folder.is_empty() {
        println!("cargo:rustc-link-search=native={folder}");
    }
}

fn link(archive: bool) {
    let kind = if archive { "static" } else { "dylib" };
    println!("cargo:rustc-link-lib={kind}=wtransport");
}

/// Returns what pkg-config prints, if it succeeds.
fn pkg_config(arguments: &[&str]) -> Option<String> {
    let program = env::var("PKG_CONFIG").unwrap_or_else(|_| "pkg-config".into());
    let ran = Command::new(program).args(arguments).output().ok()?;
    if !ran.status.success() {
        return None;
    }
    String::from_utf8(ran.stdout).ok()
}

fn fail(why: &str) -> ! {
    eprintln!("vesgrauf: {why}");
    exit(1)
}
