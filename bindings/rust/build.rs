//! Links the proved library: the archive of BASINPANTRY_LIB_DIR, or target/staticlib of the repository, which tools/staticlib writes where it is missing.
use std::fs::{File, OpenOptions};
use std::io::{BufRead, BufReader, Write};
use std::path::{Path, PathBuf};
use std::process::{Command, Stdio};
use std::time::Instant;

const ARCHIVE: &str = "libcapi.a";

fn main() {
    println!("cargo:rerun-if-env-changed=BASINPANTRY_LIB_DIR");
    match check_target().and_then(|()| archive_folder()).and_then(|folder| canonical(&folder)) {
        Ok(folder) => {
            println!("cargo:rerun-if-changed={}", folder.join(ARCHIVE).display());
            println!("cargo:rustc-link-search=native={}", folder.display());
            println!("cargo:rustc-link-lib=static=capi");
            // for tests/c_example.rs
            println!("cargo:rustc-env=BASINPANTRY_ARCHIVE={}", folder.join(ARCHIVE).display());
        }
        Err(why) => {
            eprintln!("{why}");
            std::process::exit(1);
        }
    }
}

/// The archive has machine code of one kind, and a linker's complaint about another says little.
fn check_target() -> Result<(), String> {
    let arch = std::env::var("CARGO_CFG_TARGET_ARCH").map_err(|why| format!("CARGO_CFG_TARGET_ARCH: {why}"))?;
    if arch == "x86_64" { Ok(()) } else { Err(format!("{ARCHIVE} links into x86_64 programs only, and the target is {arch}")) }
}

fn canonical(path: &Path) -> Result<PathBuf, String> {
    path.canonicalize().map_err(|why| format!("{}: {why}", path.display()))
}

fn archive_folder() -> Result<PathBuf, String> {
    if let Some(folder) = std::env::var_os("BASINPANTRY_LIB_DIR").filter(|folder| !folder.is_empty()) {
        let folder = PathBuf::from(folder);
        if folder.is_relative() {
            return Err(format!("BASINPANTRY_LIB_DIR: {} is no absolute path, which cargo needs", folder.display()));
        }
        if folder.join(ARCHIVE).is_file() {
            return Ok(folder);
        }
        return Err(format!("BASINPANTRY_LIB_DIR: there is no {ARCHIVE} in {}", folder.display()));
    }
    let root = canonical(&Path::new(env!("CARGO_MANIFEST_DIR")).join("../.."))?;
    let folder = root.join("target/staticlib");
    for decides in ["crates.txt", "tools/staticlib"] {
        println!("cargo:rerun-if-changed={}", root.join(decides).display());
    }
    // each crate's own folders: beside them lies out/, where rt keeps its work
    for entry in root.join("crates").read_dir().map_err(|why| format!("crates: {why}"))? {
        let entry = entry.map_err(|why| format!("crates: {why}"))?.path();
        for part in ["src", "specs", "proofs"].map(|part| entry.join(part)).iter().filter(|part| part.is_dir()) {
            println!("cargo:rerun-if-changed={}", part.display());
        }
    }
    if folder.join(ARCHIVE).is_file() {
        warn_if_stale(&root);
    } else {
        write_archive(&root)?;
    }
    Ok(folder)
}

/// An archive that was made from something else than stands there is linked, since writing it proves the library anew, which may take long; but it is told.
fn warn_if_stale(root: &Path) {
    match Command::new(root.join("tools/staticlib")).arg("--check").output() {
        Ok(said) if said.status.success() => {}
        Ok(said) => println!("cargo:warning={}: run tools/staticlib", String::from_utf8_lossy(&said.stdout).trim()),
        Err(why) => println!("cargo:warning=tools/staticlib, which sees whether {ARCHIVE} is up to date, can't be run: {why}"),
    }
}

/// Proves the library and compiles it, which takes minutes. Cargo keeps what a build script prints until it has ended, its warnings too, so the line for each
/// crate goes to the terminal itself; where there is none, one warning at the end says what took so long.
fn write_archive(root: &Path) -> Result<(), String> {
    let began = Instant::now();
    let mut terminal = OpenOptions::new().write(true).open("/dev/tty").ok();
    let tool = root.join("tools/staticlib");
    let mut running = Command::new(&tool)
        .stdin(Stdio::null())
        .stderr(Stdio::piped())
        .spawn()
        .map_err(|why| format!("there is no {ARCHIVE}, and {}, which writes it, can't be run: {why}", tool.display()))?;
    for line in BufReader::new(running.stderr.take().expect("a pipe")).lines().map_while(Result::ok) {
        eprintln!("{line}");
        show(&mut terminal, &line);
    }
    let status = running.wait().map_err(|why| format!("{}: {why}", tool.display()))?;
    if !status.success() {
        return Err(format!("tools/staticlib wrote no {ARCHIVE} ({status}). BASINPANTRY_LIB_DIR may name a folder that has one"));
    }
    if terminal.is_none() {
        let seconds = began.elapsed().as_secs();
        println!("cargo:warning=the library was proved and written to target/staticlib/{ARCHIVE} in {seconds} s (target/staticlib/rt.log)");
    }
    Ok(())
}

/// In the place of cargo's line of progress, which it draws again below.
fn show(terminal: &mut Option<File>, line: &str) {
    if let Some(to) = terminal {
        let _ = writeln!(to, "\r\x1b[K{line}");
    }
}
