//! The refusals are listed once, in crates/error/refusals.txt: this crate says of each what that table says, and what tools write from it, and from what the
//! crates name, stands as they write it. tests/header.rs compares the header with this crate.
use basinpantry::Refusal;
use std::collections::BTreeMap;
use std::path::{Path, PathBuf};
use std::process::Command;

/// A refusal of the table: its number, its name, and what stands below it by key.
struct Row {
    number: u32,
    name: String,
    said: BTreeMap<String, Vec<String>>,
}

fn root() -> PathBuf {
    Path::new(env!("CARGO_MANIFEST_DIR")).join("../..")
}

fn table() -> Vec<Row> {
    let text = std::fs::read_to_string(root().join("crates/error/refusals.txt")).expect("crates/error/refusals.txt");
    let mut rows: Vec<Row> = Vec::new();
    for line in text.lines().filter(|line| !line.is_empty() && !line.starts_with('#')) {
        if let Some(line) = line.strip_prefix("    ") {
            let (key, said) = line.split_once(' ').expect("a key and a text");
            let row = rows.last_mut().expect("a number and a name first");
            row.said.entry(key.to_string()).or_default().push(said.trim_start().to_string());
        } else {
            let (number, name) = line.split_once(' ').expect("a number and a name");
            rows.push(Row { number: number.parse().expect("a number"), name: name.to_string(), said: BTreeMap::new() });
        }
    }
    assert!(rows.len() >= 15);
    rows
}

#[test]
fn this_crate() {
    let rows = table();
    for row in &rows {
        let why = Refusal::from_number(row.number, [10, 20, 30, 40]).unwrap_or_else(|| panic!("{}", row.number));
        let fields: Vec<&str> = row.said.get("value").into_iter().flatten().map(|line| line.split(' ').next().expect("a field")).collect();
        assert_eq!((why.name(), why.sentence()), (row.name.as_str(), row.said["sentence"][0].as_str()));
        assert_eq!((why.value_names(), why.values()), (fields.as_slice(), [10, 20, 30, 40][..fields.len()].to_vec()));
        let mut printed = why.sentence().to_string();
        if let Some(display) = row.said.get("display") {
            printed += &format!(": {}", display[0]);
            for (field, value) in fields.iter().zip(why.values()) {
                printed = printed.replace(&format!("{{{field}}}"), &value.to_string());
            }
        }
        assert_eq!(why.to_string(), printed);
    }
    let numbers = (0..=255).filter(|number| Refusal::from_number(*number, [0; 4]).is_some());
    assert!(numbers.eq(rows.iter().map(|row| row.number)));
}

/// Nothing is left of an edit by hand, in the library, the header, this crate, README.md and crates.txt. Without Python the others here have to do.
#[test]
fn what_tools_write() {
    for tool in ["tools/refusals.py", "tools/crates.py"] {
        match Command::new("python3").arg(root().join(tool)).arg("--check").output() {
            Ok(ran) => {
                assert!(ran.status.success(), "{tool}: {}{}", String::from_utf8_lossy(&ran.stdout), String::from_utf8_lossy(&ran.stderr))
            }
            Err(why) => println!("python3 can't be run: {why}"),
        }
    }
}
