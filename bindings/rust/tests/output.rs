//! Where `case` writes: the old file or the new one stands at any time, and nothing else is left.
#![cfg(target_os = "linux")]
mod common;

use common::{Ran, examples, make, read};
use std::fs::{self, Permissions};
use std::os::unix::fs::{MetadataExt, PermissionsExt, symlink};
use std::path::{Path, PathBuf};
use std::process::{Command, Stdio};
use std::sync::OnceLock;

/// An empty folder for a test.
fn folder(name: &str) -> PathBuf {
    let folder = Path::new(env!("CARGO_TARGET_TMPDIR")).join(format!("output_{name}"));
    let _ = fs::remove_dir_all(&folder);
    fs::create_dir_all(&folder).unwrap();
    folder
}

fn names(folder: &Path) -> Vec<String> {
    let mut names: Vec<_> = fs::read_dir(folder).unwrap().map(|entry| entry.unwrap().file_name().into_string().unwrap()).collect();
    names.sort();
    names
}

/// What `case` writes of the example: made once, since the tests run side by side.
fn expected() -> Vec<u8> {
    static MADE: OnceLock<Vec<u8>> = OnceLock::new();
    let make = || {
        let out = folder("expected").join("a.case");
        assert_eq!(make(out.to_str().unwrap(), &[]).status, 0);
        fs::read(out).unwrap()
    };
    MADE.get_or_init(make).clone()
}

const EXAMPLE: &str = "case --ours json/ours.json --peer json/peer.json --lock json/funding_lock.json --type json/token_type.json \
                       --source json/source_lock.json --records json/records.json --rate 1000";

/// A command for `case` of the example by a shell, in the folder of examples; `$P` is the program with its words, and `$O` this path.
fn shell(script: &str, path: &Path) -> Command {
    let mut command = Command::new("sh");
    let program = format!("{} {EXAMPLE}", env!("CARGO_BIN_EXE_basinpantry"));
    command.args(["-c", script]).env("P", program).env("O", path).current_dir(examples());
    command
}

fn run(script: &str, path: &Path) -> (Ran, Vec<u8>) {
    let output = shell(script, path).output().unwrap();
    let text = |bytes: &[u8]| String::from_utf8_lossy(bytes).into_owned();
    (Ran { status: output.status.code().unwrap(), out: text(&output.stdout), err: text(&output.stderr) }, output.stdout)
}

/// No input is overwritten by whatever name: another path, a hard link, a symbolic link, standard input.
#[test]
fn no_input_is_overwritten() {
    let folder = folder("inputs");
    let at = |name: &str| folder.join(name).to_str().unwrap().to_string();
    fs::write(at("peer.json"), read("peer.json")).unwrap();
    fs::hard_link(at("peer.json"), at("hard")).unwrap();
    symlink("peer.json", at("soft")).unwrap();
    symlink("soft", at("softer")).unwrap();
    let why = |option: &str| format!("basinpantry: -o is the file of {option}, which would be overwritten; try: basinpantry case --help\n");
    for name in ["peer.json", "./peer.json", "hard", "soft", "softer"] {
        let made = make(&at(name), &[("--peer", &at("peer.json"))]);
        assert_eq!((made.status, made.out.as_str(), made.err), (2, "", why("--peer")), "{name}");
    }
    let made = make(&at("peer.json"), &[("--peer", &at("hard"))]);
    assert_eq!((made.status, made.err), (2, why("--peer")));
    let (before, after) = EXAMPLE.split_once("json/peer.json").unwrap();
    let script = format!("{} {before} - {after} -o \"$O\" < \"$O\"", env!("CARGO_BIN_EXE_basinpantry"));
    let (ran, _) = run(&script, Path::new(&at("peer.json")));
    assert_eq!((ran.status, ran.err), (2, why("--peer")));
    // standard output that was opened on an input, by no name and by its own
    for option in ["", "-o -", "-o /dev/stdout"] {
        let script = format!("{} {before} \"$O\" {after} {option} 1<> \"$O\"", env!("CARGO_BIN_EXE_basinpantry"));
        let (ran, _) = run(&script, Path::new(&at("peer.json")));
        assert_eq!((ran.status, ran.err), (2, why("--peer")), "{option}");
    }
    assert_eq!(fs::read_to_string(at("peer.json")).unwrap(), read("peer.json"));
    assert_eq!(names(&folder), ["hard", "peer.json", "soft", "softer"]);
}

/// A case file that nobody takes is no success.
#[test]
fn a_closed_pipe() {
    let (ran, _) = run("{ sleep 1; $P; echo $? >&2; } | true", Path::new(""));
    assert_eq!((ran.status, ran.out.as_str(), ran.err.as_str()), (0, "", "basinpantry: standard output: Broken pipe (os error 32)\n2\n"));
}

#[test]
fn a_file_is_replaced() {
    let folder = folder("replaced");
    let path = folder.join("a.case");
    let (ran, _) = run("$P -o \"$O\"", &path);
    assert_eq!((ran.status, ran.out, ran.err.as_str()), (0, format!("{}: 2144 bytes\n", path.display()), ""));
    assert_eq!(fs::read(&path).unwrap(), expected());
    // the permissions stay, and another name keeps the old content
    fs::write(&path, "old").unwrap();
    fs::set_permissions(&path, Permissions::from_mode(0o640)).unwrap();
    fs::hard_link(&path, folder.join("other")).unwrap();
    assert_eq!(run("$P -o \"$O\"", &path).0.status, 0);
    assert_eq!(fs::read(&path).unwrap(), expected());
    assert_eq!(fs::metadata(&path).unwrap().mode() & 0o777, 0o640);
    assert_eq!(fs::read(folder.join("other")).unwrap(), b"old");
    // through links, which stay; the last leads nowhere yet
    symlink("a.case", folder.join("link")).unwrap();
    fs::write(&path, "old").unwrap();
    assert_eq!(run("$P -o \"$O\"", &folder.join("link")).0.status, 0);
    assert_eq!(fs::read(&path).unwrap(), expected());
    symlink("new.case", folder.join("nowhere")).unwrap();
    assert_eq!(run("$P -o \"$O\"", &folder.join("nowhere")).0.status, 0);
    assert_eq!(fs::read(folder.join("new.case")).unwrap(), expected());
    assert!(folder.join("nowhere").symlink_metadata().unwrap().is_symlink());
    assert_eq!(names(&folder), ["a.case", "link", "new.case", "nowhere", "other"]);
    // a name in this folder
    assert_eq!(run("cd \"$O\" && ln -s \"$OLDPWD/json\" json && $P -o here.case", &folder).0.status, 0);
    assert_eq!(fs::read(folder.join("here.case")).unwrap(), expected());
}

/// A file that grows over a limit fails as one on a full disk does.
#[test]
fn a_write_that_fails() {
    let folder = folder("fails");
    let path = folder.join("a.case");
    let script = "trap '' XFSZ; ulimit -f 2; $P -o \"$O\"";
    let (ran, _) = run(script, &path);
    let why = |left: &str| format!("basinpantry: {}: File too large (os error 27); {left}\n", path.display());
    assert_eq!((ran.status, ran.out.as_str(), ran.err), (2, "", why("nothing was written")));
    assert!(names(&folder).is_empty());
    fs::write(&path, "old").unwrap();
    let (ran, _) = run(script, &path);
    assert_eq!((ran.status, ran.out.as_str(), ran.err), (2, "", why(&format!("the old {} is still there", path.display()))));
    assert_eq!(fs::read(&path).unwrap(), b"old");
    assert_eq!(names(&folder), ["a.case"]);
    let (ran, _) = run("$P -o /dev/full", &path);
    assert_eq!((ran.status, ran.err.as_str()), (2, "basinpantry: /dev/full: No space left on device (os error 28)\n"));
    let (ran, _) = run("$P > /dev/full", &path);
    assert_eq!((ran.status, ran.err.as_str()), (2, "basinpantry: standard output: No space left on device (os error 28)\n"));
    let (ran, _) = run("$P -o \"$O\"/b.case", &path);
    assert_eq!((ran.status, ran.err), (2, format!("basinpantry: {}/b.case: Not a directory (os error 20)\n", path.display())));
    let (ran, _) = run("$P -o \"$O\"/nowhere/b.case", &folder);
    let why = "No such file or directory (os error 2); nothing was written";
    assert_eq!((ran.status, ran.err), (2, format!("basinpantry: {}/nowhere/b.case: {why}\n", folder.display())));
    let (ran, _) = run("$P -o \"$O\"", &folder);
    assert_eq!((ran.status, ran.err), (2, format!("basinpantry: {}: is a directory\n", folder.display())));
}

/// After a failure that has nothing to do with the file, the old one is still there, and said to be.
#[test]
fn a_failure_before() {
    let path = folder("before").join("a.case");
    let name = path.to_str().unwrap();
    let why = "basinpantry: json/records.json: line 1, column 1: an object is expected, not a list\n";
    let made = make(name, &[("--peer", "json/records.json")]);
    assert_eq!((made.status, made.err.as_str()), (2, why));
    fs::write(&path, "old").unwrap();
    let made = make(name, &[("--peer", "json/records.json")]);
    assert_eq!((made.status, made.err), (2, format!("{why}basinpantry: note: the old {name} is still there\n")));
    assert_eq!(fs::read(&path).unwrap(), b"old");
}

/// What is no regular file is written to as it is, and standard output by another name is standard output.
#[test]
fn no_regular_file() {
    let folder = folder("irregular");
    let path = folder.join("pipe");
    for script in [
        "mkfifo \"$O\"; $P -o \"$O\" >&2 & cat \"$O\"; wait; rm \"$O\"",
        "$P -o /dev/stdout | cat",
        "$P -o /dev/stdout > \"$O\"; cat \"$O\"; rm \"$O\"",
        "$P -o \"$O\" > \"$O\"; cat \"$O\"; rm \"$O\"",
        "$P -o - | cat",
        "$P | cat",
    ] {
        let (ran, bytes) = run(script, &path);
        assert_eq!((ran.status, bytes == expected()), (0, true), "{script}: {}", ran.err);
        assert!(names(&folder).is_empty(), "{script}: {:?}", names(&folder));
    }
    assert_eq!(run("$P -o /dev/null", &path).0.out, "/dev/null: 2144 bytes\n");
}

/// A terminal is asked for a file or a pipe. The side of it that a program holds which has a terminal made is one too.
#[test]
fn no_bytes_for_a_terminal() {
    let terminal = fs::OpenOptions::new().read(true).write(true).open("/dev/ptmx").unwrap();
    let output =
        shell("$P", Path::new("")).stdout(Stdio::from(terminal)).stderr(Stdio::piped()).spawn().unwrap().wait_with_output().unwrap();
    let why =
        "basinpantry: a case file is no text for a terminal: name a file with -o, or send it into a pipe; try: basinpantry case --help\n";
    assert_eq!((output.status.code(), String::from_utf8_lossy(&output.stderr).as_ref()), (Some(2), why));
}

/// Killed at any time: the old file or the new one, whole.
#[test]
fn killed() {
    let folder = folder("killed");
    let path = folder.join("a.case");
    let text = read("peer.json");
    let (start, end) = text.rsplit_once("\"0x\"").unwrap();
    fs::write(folder.join("peer.json"), format!("{start}\"0x{}\"{end}", "07".repeat(2_000_000))).unwrap();
    let command = || {
        let mut command = Command::new(env!("CARGO_BIN_EXE_basinpantry"));
        command.args(EXAMPLE.split_whitespace().map(|word| if word == "json/peer.json" { folder.join("peer.json") } else { word.into() }));
        command.arg("-o").arg(&path).current_dir(examples()).stdout(Stdio::null()).stderr(Stdio::null());
        command
    };
    let begun = std::time::Instant::now();
    assert!(command().status().unwrap().success());
    let whole = begun.elapsed();
    let new = fs::read(&path).unwrap();
    let old = b"old".repeat(1000);
    for k in 0..24 {
        fs::write(&path, &old).unwrap();
        let mut child = command().spawn().unwrap();
        std::thread::sleep(whole * k / 20);
        let _ = child.kill();
        child.wait().unwrap();
        let found = fs::read(&path).unwrap();
        assert!(found == old || found == new, "{} bytes after {k}", found.len());
    }
}
