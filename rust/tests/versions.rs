//! Archive, crate, header and list of changes have one version.
use hawsermole::raw;
use std::fs;

fn read(file: &str) -> String {
    let path = format!("{}/../{file}", env!("CARGO_MANIFEST_DIR"));
    fs::read_to_string(&path).unwrap_or_else(|error| panic!("{path}: {error}"))
}

/// `0.6.0` of 0x00MMmmpp.
fn dotted(version: u32) -> String {
    let [zero, major, minor, patch] = version.to_be_bytes();
    assert_eq!(zero, 0);
    format!("{major}.{minor}.{patch}")
}

#[test]
fn the_archive_and_the_crate() {
    assert_eq!(raw::hm_version(), raw::VERSION);
    assert_eq!(dotted(raw::VERSION), env!("CARGO_PKG_VERSION"));
}

#[test]
fn the_header() {
    let header = read("include/hawsermole.h");
    assert!(header.contains(&format!("\n#define HM_VERSION 0x{:06X}\n", raw::VERSION)));
    assert!(header.contains(&format!("0x00MMmmpp: {}.", dotted(raw::VERSION))));
}

/// The newest version stands first.
#[test]
fn the_list_of_changes() {
    let list = read("docs/LANDINGS.md");
    let first = list.split("| Version | What came with it |\n|---|---|\n").nth(1).unwrap();
    assert!(first.starts_with(&format!("| {} |", dotted(raw::VERSION))), "{first}");
}
