//! One version: that of Cargo.toml is the header's, the first of CHANGELOG.md, and what the program prints.
use std::path::Path;
use std::process::Command;

const VERSION: &str = env!("CARGO_PKG_VERSION");

fn text(path: &str) -> String {
    std::fs::read_to_string(Path::new(env!("CARGO_MANIFEST_DIR")).join(path)).expect(path)
}

#[test]
fn the_header_has_it() {
    let parts: Vec<u32> = VERSION.split('.').map(|part| part.parse().expect("three numbers")).collect();
    assert!(parts.len() == 3 && parts[1] < 100 && parts[2] < 100, "{VERSION}");
    let number = 10_000 * parts[0] + 100 * parts[1] + parts[2];
    let header = text("../c/basinpantry.h");
    let lines: Vec<&str> = header.lines().filter(|line| line.contains("BASINPANTRY_VERSION")).collect();
    assert_eq!(lines, [format!("#define BASINPANTRY_VERSION {number}")]);
    assert!(header.contains(&format!("/* The version, {VERSION}: ")));
}

#[test]
fn the_changelog_begins_with_it() {
    let changes = text("../../CHANGELOG.md");
    let first = changes.lines().find_map(|line| line.strip_prefix("## ")).expect("a version");
    assert_eq!(first.split(',').next(), Some(VERSION));
}

#[test]
fn the_program_prints_it() {
    let ran = Command::new(env!("CARGO_BIN_EXE_basinpantry")).arg("--version").output().expect("the program runs");
    assert_eq!(String::from_utf8_lossy(&ran.stdout), format!("basinpantry {VERSION}\n"));
}
