//! What README.md says that the program prints, in the folder that it goes to.
mod common;

#[allow(dead_code)]
#[path = "../examples/judge_update.rs"]
mod judge_update;

use common::examples;
use std::path::{Path, PathBuf};
use std::process::Command;

/// The commands of the indented blocks, each with what is to be printed.
fn commands(text: &str) -> Vec<(String, String)> {
    let mut commands: Vec<(String, String)> = Vec::new();
    let mut open = false;
    let mut lines = text.lines().peekable();
    while let Some(line) = lines.next() {
        if let Some(command) = line.strip_prefix("    $ ") {
            let mut command = command.to_string();
            while let Some(start) = command.strip_suffix('\\') {
                command = format!("{start} {}", lines.next().unwrap().trim());
            }
            commands.push((command, String::new()));
            open = true;
        } else if let (Some(printed), true) = (line.strip_prefix("    "), open) {
            let out = &mut commands.last_mut().unwrap().1;
            *out += printed;
            out.push('\n');
        } else if line.is_empty() && open && lines.peek().is_some_and(|next| next.starts_with("    ") && !next.starts_with("    $")) {
            commands.last_mut().unwrap().1.push('\n');
        } else {
            open = false;
        }
    }
    commands
}

fn copy(from: &Path, to: &Path) {
    std::fs::create_dir_all(to).unwrap();
    for entry in std::fs::read_dir(from).unwrap() {
        let entry = entry.unwrap();
        let (path, copied) = (entry.path(), to.join(entry.file_name()));
        if path.is_dir() {
            copy(&path, &copied);
        } else {
            std::fs::copy(&path, &copied).unwrap();
        }
    }
}

/// A copy of the examples as they are in the repository, and nothing else.
fn copied_examples() -> PathBuf {
    let folder = Path::new(env!("CARGO_TARGET_TMPDIR")).join("readme");
    let _ = std::fs::remove_dir_all(&folder);
    copy(&examples(), &folder);
    folder
}

#[test]
fn what_the_program_prints() {
    let here = Path::new(env!("CARGO_MANIFEST_DIR"));
    let commands = commands(&std::fs::read_to_string(here.join("README.md")).unwrap());
    let mut folder = None;
    let mut ran = 0;
    for (command, printed) in &commands {
        let words: Vec<&str> = command.split_whitespace().collect();
        match (words[0], &folder) {
            ("basinpantry", Some(folder)) => {
                let output = Command::new(env!("CARGO_BIN_EXE_basinpantry")).args(&words[1..]).current_dir(folder).output().unwrap();
                assert_eq!(String::from_utf8_lossy(&output.stdout), *printed, "{command}");
                ran += 1;
            }
            ("cd", None) => {
                assert_eq!(here.join(words[1]).canonicalize().unwrap(), examples().canonicalize().unwrap());
                folder = Some(copied_examples());
            }
            // this test has a program of its own
            ("cargo" | "PATH=$PWD/target/release:$PATH", None) => assert_eq!(printed, ""),
            _ => panic!("{command}"),
        }
    }
    assert_eq!(ran, 9);
}

/// The program in it is the example, and prints what is said.
#[test]
fn the_program_in_it() {
    let here = Path::new(env!("CARGO_MANIFEST_DIR"));
    let text = std::fs::read_to_string(here.join("README.md")).unwrap();
    let block = |kind: &str| {
        let (_, rest) = text.split_once(&format!("```{kind}\n")).expect("a block");
        rest.split_once("```").expect("its end").0.to_string()
    };
    assert_eq!(block("rust"), std::fs::read_to_string(here.join("examples/judge_update.rs")).unwrap());
    let lines = judge_update::judge(examples().join("json").to_str().unwrap()).unwrap();
    assert_eq!(block("text"), lines.join("\n") + "\n");
}
