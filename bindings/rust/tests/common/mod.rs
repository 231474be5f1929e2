//! What the tests of the program share.
#![allow(dead_code)]
use std::io::Write;
use std::path::{Path, PathBuf};
use std::process::{Command, Stdio};

/// What a run of the program gave.
#[derive(Debug, PartialEq, Eq)]
pub struct Ran {
    pub status: i32,
    pub out: String,
    pub err: String,
}

pub fn run(words: &[&str]) -> Ran {
    run_with(words, &[])
}

/// Runs the program with this standard input, in the folder of examples.
pub fn run_with(words: &[&str], stdin: &[u8]) -> Ran {
    let mut child = Command::new(env!("CARGO_BIN_EXE_basinpantry"))
        .args(words)
        .current_dir(examples())
        .stdin(Stdio::piped())
        .stdout(Stdio::piped())
        .stderr(Stdio::piped())
        .spawn()
        .expect("the program runs");
    // it may end without reading all of it
    let _ = child.stdin.take().expect("a pipe").write_all(stdin);
    let output = child.wait_with_output().expect("it ends");
    Ran {
        status: output.status.code().expect("no signal"),
        out: String::from_utf8_lossy(&output.stdout).into_owned(),
        err: String::from_utf8_lossy(&output.stderr).into_owned(),
    }
}

pub fn examples() -> PathBuf {
    Path::new(env!("CARGO_MANIFEST_DIR")).join("../../examples")
}

/// A file of this content in a folder for tests.
pub fn file(name: &str, content: impl AsRef<[u8]>) -> String {
    let path = Path::new(env!("CARGO_TARGET_TMPDIR")).join(name);
    std::fs::write(&path, content).expect("a file");
    path.to_str().expect("a plain path").to_string()
}

/// The case files of the examples, each with the line that is to be printed.
pub fn cases() -> Vec<(PathBuf, Vec<u8>, String)> {
    let mut cases = Vec::new();
    for entry in std::fs::read_dir(examples().join("cases")).expect("examples/cases") {
        let path = entry.expect("a file").path();
        if path.extension().is_some_and(|extension| extension == "case") {
            let line = std::fs::read_to_string(path.with_extension("line")).expect("its line");
            cases.push((path.clone(), std::fs::read(&path).expect("its bytes"), line));
        }
    }
    assert!(cases.len() >= 12);
    cases.sort();
    cases
}

/// A file of the example in JSON.
pub fn read(name: &str) -> String {
    std::fs::read_to_string(examples().join("json").join(name)).unwrap()
}

/// Makes a case of the example, with some of its files replaced.
pub fn make(out: &str, replaced: &[(&str, &str)]) -> Ran {
    let mut words = vec!["case".to_string(), "--rate".to_string(), "1000".to_string(), "-o".to_string(), out.to_string()];
    for (option, name) in [
        ("--ours", "json/ours.json"),
        ("--peer", "json/peer.json"),
        ("--lock", "json/funding_lock.json"),
        ("--type", "json/token_type.json"),
        ("--source", "json/source_lock.json"),
        ("--records", "json/records.json"),
    ] {
        let name = replaced.iter().find(|(other, _)| *other == option).map_or(name, |(_, name)| name);
        if !name.is_empty() {
            words.extend([option.to_string(), name.to_string()]);
        }
    }
    run(&words.iter().map(String::as_str).collect::<Vec<_>>())
}
