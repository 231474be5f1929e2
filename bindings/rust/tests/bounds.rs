//! What the program reads, and the memory that it takes: bounded for every file, whatever stands in it.
#![cfg(target_os = "linux")]
mod common;

use common::{Ran, file, make, run, run_with};
use std::process::Command;

const MIB: usize = 1024 * 1024;

/// The bound as the program has it.
const MAX_FILE_BYTES: usize = 8 * MIB;

/// So many bytes of these, over and over.
fn filled(with: &str, bytes: usize) -> String {
    with.repeat(bytes / with.len())
}

/// Runs the program with an address space of so many MiB. The program itself, its stack and its libraries take some.
fn run_within(mib: usize, words: &[&str]) -> Ran {
    let script = format!("ulimit -v {}; exec \"$@\"", mib * 1024);
    let output = Command::new("sh")
        .args(["-c", &script, "sh", env!("CARGO_BIN_EXE_basinpantry")])
        .args(words)
        .current_dir(common::examples())
        .output()
        .expect("a shell");
    Ran {
        status: output.status.code().expect("no signal"),
        out: String::from_utf8_lossy(&output.stdout).into_owned(),
        err: String::from_utf8_lossy(&output.stderr).into_owned(),
    }
}

fn too_long(name: &str, bound: usize) -> String {
    format!("basinpantry: {name}: it has more than {bound} bytes, and no more are read; --max-bytes N sets another bound\n")
}

#[test]
fn no_more_is_read() {
    let peer = ["case", "--rate", "1", "--peer", "/dev/zero", "--lock", "-", "--source", "-"];
    for words in [&["check", "/dev/zero"][..], &["show", "/dev/zero"], &["replay", "cases/first.case", "/dev/zero"], &peer[..5]] {
        let ran = run_within(64, words);
        assert_eq!((ran.status, ran.out.as_str()), (2, ""), "{words:?}");
        assert_eq!(ran.err, too_long("/dev/zero", MAX_FILE_BYTES), "{words:?}");
    }
    let ran = run_with(&["check", "-"], &vec![b' '; MAX_FILE_BYTES + 1]);
    assert_eq!((ran.status, ran.err), (2, too_long("-", MAX_FILE_BYTES)));
    let path = file("long.json", filled("[1,", 40 * MIB));
    let ran = run_within(64, &["show", &path]);
    assert_eq!((ran.status, ran.err), (2, too_long(&path, MAX_FILE_BYTES)));
    std::fs::remove_file(path).unwrap();
}

/// The bound itself is read, one byte more is not; and `--max-bytes` sets another.
#[test]
fn another_bound() {
    let bytes = std::fs::read(common::examples().join("cases/first.case")).unwrap();
    let bound = bytes.len().to_string();
    assert_eq!(run(&["check", "--max-bytes", &bound, "cases/first.case"]).status, 0);
    let ran = run(&["check", &format!("--max-bytes={}", bytes.len() - 1), "cases/first.case"]);
    assert_eq!((ran.status, ran.err), (2, too_long("cases/first.case", bytes.len() - 1)));
    let mut text = "\"".to_string();
    text += &filled("a", MAX_FILE_BYTES - 2);
    text += "\"";
    let why = |path: &str| format!("basinpantry: {path}: line 1, column 1: bytes begins with 0x\n");
    let path = file("bound.json", &text);
    assert_eq!(run(&["show", &path]).err, why(&path));
    text.push(' ');
    let path = file("bound.json", &text);
    assert_eq!(run(&["show", &path]).err, too_long(&path, MAX_FILE_BYTES));
    assert_eq!(run(&["show", "--max-bytes=0x800001", &path]).err, why(&path));
    for (bound, why) in [
        ("1073741825", "--max-bytes is at most 1073741824, not 1073741825"),
        ("many", "--max-bytes is a number below 2^64, not many"),
        ("", "--max-bytes needs a number"),
    ] {
        let ran = run(&["show", &format!("--max-bytes={bound}"), &path]);
        assert_eq!((ran.status, ran.err), (2, format!("basinpantry: {why}; try: basinpantry show --help\n")));
    }
}

/// JSON of 12 MB, of which nothing is built: the memory is the text's and a little more.
#[test]
fn reading_builds_nothing() {
    for (name, text, why) in [
        ("ones", filled("1,", 12_000_000), "line 1, column 12000002: a value is expected, and the text ends"),
        ("lists", filled("[],", 12_000_000), "line 1, column 12000002: a value is expected, and the text ends"),
        ("fields", filled("{\"a\":1},", 12_000_000), "line 1, column 12000002: a value is expected, and the text ends"),
        ("nested", filled("[", 12_000_000), "line 1, column 65: nested over 64 levels"),
        ("string", format!("\"{}", filled("a", 12_000_000)), "line 1, column 2: the string that begins here has no end"),
    ] {
        let path = file(&format!("builds_{name}.json"), format!("[{text}"));
        let ran = run_within(48, &["show", "--max-bytes=20000000", &path]);
        assert_eq!(ran.status, 2, "{name}");
        assert_eq!(ran.err, format!("basinpantry: {path}: {why}\n"));
        std::fs::remove_file(path).unwrap();
    }
}

/// Files of the longest length whose parts take the most memory for their bytes: under twenty times the bound, shown and made.
#[test]
fn what_is_built_is_bounded() {
    let list = |item: &str| format!("[{}{item}]", filled(&format!("{item},"), MAX_FILE_BYTES - 1024));
    let empty = list("\"0x\"");
    let peer = format!(
        "{{\"version\":\"0x0\",\"cell_deps\":[],\"header_deps\":[],\"inputs\":[],\"outputs\":[],\"outputs_data\":[],\"witnesses\":{empty}}}"
    );
    let path = file("bounded_peer.json", peer);
    let within = 20 * MAX_FILE_BYTES / MIB;
    let ran = run_within(within, &["show", &path]);
    assert_eq!((ran.status, ran.err.as_str()), (0, ""));
    assert!(ran.out.contains("\nwitnesses: 1677"), "{}", &ran.out[..200]);
    let out = file("bounded.case", "");
    let parts = ["--lock", "json/funding_lock.json", "--source", "json/source_lock.json", "--rate=1", "-o", &out];
    let ran = run_within(within, &[&["case", "--peer", &path][..], &parts].concat());
    assert_eq!(ran.status, 0, "{}", ran.err);
    let ran = run_within(within, &["check", "--max-bytes=20000000", &out]);
    assert!(ran.out.starts_with("refused (4): the peer's transaction is over a limit: its size is "), "{} {}", ran.out, ran.err);
    // records of 4 bytes each
    let mut case = std::fs::read(common::examples().join("cases/itself.case")).unwrap();
    while case.len() < MAX_FILE_BYTES - 4 {
        case.extend([0, 0, 0, 0x90]);
    }
    let case = file("bounded_records.case", case);
    for words in [&["check", &case][..], &["show", &case], &["replay", &case]] {
        let ran = run_within(within, words);
        assert!(
            ran.status < 2 && ran.out.contains("refused (3): something that is lent can't be used: 0 inputs were added, and "),
            "{}",
            ran.err
        );
    }
    // in JSON, each would take 160
    let records = file("bounded_records.json", list("null"));
    let made = make(&out, &[("--records", &records)]);
    assert_eq!(made.status, 2);
    assert!(made.err.contains("bounded_records.json: line 1, column 20482: there are over 4096 records\n"), "{}", made.err);
    for name in [path, out, case, records] {
        std::fs::remove_file(name).unwrap();
    }
}
