//! Case files that `case` makes: how long they may be, what is noted, and where they go.
mod common;

use common::{file, make, read, run, run_with};

const VERDICT: &str = "accepted: the peer puts in 1000 shannons (0.00001000 CKB) and 0 tokens more than the growth of output 0 and the outputs that it added\n";

/// Every command judges a case of any length; the verdict line alone has the bound of the proved program.
#[test]
fn a_long_case() {
    let text = read("peer.json");
    let (start, end) = text.rsplit_once("\"0x\"").unwrap();
    let peer = file("long_case.json", format!("{start}\"0x{}\"{end}", "00".repeat(70_000)));
    let out = file("long_case.case", "");
    let made = make(&out, &[("--peer", &peer)]);
    let bytes = std::fs::read(&out).unwrap();
    assert!(bytes.len() > 70_000);
    let note = format!(
        "basinpantry: note: the case file has {} bytes, and check_update and check --line answer 3 to more than 65536\n",
        bytes.len()
    );
    assert_eq!((made.status, made.out, made.err), (0, format!("{out}: {} bytes\n", bytes.len()), note));
    let ran = run(&["check", &out]);
    assert_eq!((ran.status, ran.out.as_str(), ran.err.as_str()), (0, VERDICT, ""));
    let ran = run(&["show", &out]);
    assert!(ran.status == 0 && ran.out.ends_with(&format!("\n\n{VERDICT}")), "{}", ran.out);
    let ran = run(&["replay", &out]);
    assert!(ran.status == 0 && ran.out.starts_with(&format!("{out}: {VERDICT}\naccepted: 1 of 1\n")), "{}", ran.out);
    let ran = run_with(&["check", "--line", "-"], &bytes);
    assert_eq!((ran.status, ran.out.as_str(), ran.err.as_str()), (2, "3\n", ""));
}

/// JSON within the bound whose case file is not: a note says with what it is read.
#[test]
fn a_case_over_the_bound() {
    let text = read("peer.json");
    let (start, end) = text.rsplit_once("\"0x\"").unwrap();
    let peer = file("over_the_bound.json", format!("{start}{}\"0x\"{end}", "\"0x\",".repeat(1_100_000)));
    let out = file("over_the_bound.case", "");
    let made = make(&out, &[("--peer", &peer)]);
    let size = std::fs::metadata(&out).unwrap().len();
    assert!(
        made.status == 0 && made.err.ends_with(&format!("basinpantry: note: to be read it wants --max-bytes {size}\n")),
        "{}",
        made.err
    );
    assert_eq!(run(&["check", &out]).status, 2);
    assert_eq!(run(&["check", "--max-bytes", &size.to_string(), &out]).status, 1);
}

/// The longest file whose line is judged, and one that is 4 bytes longer.
#[test]
fn the_bound_of_the_line() {
    let mut bytes = std::fs::read(common::examples().join("cases/first.case")).unwrap();
    bytes.resize(65_536, 0);
    let start = bytes.iter().rposition(|b| *b != 0).unwrap() / 4 * 4 + 4;
    for word in bytes[start..].chunks_exact_mut(4) {
        word.copy_from_slice(&[0, 0, 0, 0x90]);
    }
    let sentence = run_with(&["check", "-"], &bytes);
    let line = run_with(&["check", "--line", "-"], &bytes);
    assert_eq!((line.status, line.out.as_str()), (1, "3\n"));
    bytes.extend([0, 0, 0, 0x90]);
    let longer = run_with(&["check", "-"], &bytes);
    assert!(sentence.out.starts_with("refused (3): ") && longer.out.starts_with("refused (3): "), "{} {}", sentence.out, longer.out);
    assert_eq!(run_with(&["check", "--line", "-"], &bytes).status, 2);
}

/// One cell listed twice is judged as in the original, and noted.
#[test]
fn an_input_listed_twice() {
    let hash = "0x5ba156200c6310bf140fbbd3bfe7e8f03d4d5f82b612c1a8ec2501826eaabc17";
    let again = format!(", {{\"since\": \"0x0\", \"previous_output\": {{\"tx_hash\": \"{hash}\", \"index\": \"0x4\"}}}}");
    let text = read("peer.json").replacen("\n    ],\n    \"outputs\"", &format!("{again}],\n    \"outputs\""), 1);
    let peer = file("twice.json", text);
    let records = read("records.json");
    let entry = records.trim().trim_start_matches('[').trim_end_matches(']');
    let out = file("twice.case", "");
    let made = make(&out, &[("--peer", &peer), ("--records", &file("twice_records.json", format!("[{entry}, {entry}]")))]);
    let note = format!("added input 2 spends {hash}:4, as input 1 does; its record is counted all the same\n");
    assert_eq!((made.status, made.err), (0, format!("basinpantry: note: {note}")));
    let shown = run(&["show", "--full", &out]).out;
    assert!(shown.contains(&format!("\n  note: {note}")), "{shown}");
    // 400 CKB and 5000 tokens above the surplus of the example
    assert_eq!(
        run(&["check", &out]).out,
        "accepted: the peer puts in 40000001000 shannons (400.00001000 CKB) and 5000 tokens more than the growth of output 0 and the outputs that it added\n"
    );
    // the example itself has nothing to be noted
    assert_eq!(make(&out, &[]).err, "");
    assert!(!run(&["show", &out]).out.contains("note:"));
}

/// Data entries beyond the outputs are judged as in the original, and noted, since the chain refuses the transaction.
#[test]
fn an_entry_too_many() {
    let peer = read("peer.json").replacen("0000\"\n    ],", "0000\",\n      \"0x\"\n    ],", 1);
    let peer = file("entries.json", peer);
    let out = file("entries.case", "");
    let made = make(&out, &[("--peer", &peer)]);
    let note =
        "the peer's transaction has 3 outputs and 4 data entries: it is judged all the same, and the chain takes no such transaction\n";
    assert_eq!((made.status, made.err), (0, format!("basinpantry: note: {note}")));
    let shown = run(&["show", &out]).out;
    assert!(shown.contains(&format!("\n  note: {note}")), "{shown}");
    assert_eq!(run(&["check", &out]).out, VERDICT);
}

/// A transaction of 123 bytes begins with the byte of `{`, and is none the less read as what it is.
#[test]
fn bytes_that_begin_as_json() {
    let bytes = basinpantry::Transaction { witnesses: vec![vec![7; 47]], ..Default::default() }.to_bytes();
    assert_eq!(bytes[0], b'{');
    let peer = file("begins.tx", &bytes);
    assert!(run(&["show", &peer]).out.starts_with("a transaction of 123 bytes, version 0\n"));
    let out = file("begins.case", "");
    assert_eq!(make(&out, &[("--peer", &peer), ("--ours", ""), ("--records", "")]).status, 0);
    assert_eq!(basinpantry::CaseFile::from_bytes(&std::fs::read(&out).unwrap()).unwrap().peer, bytes);
}

/// The file that is written is none of those that are read, by whatever name; - is standard output.
#[test]
fn where_it_goes() {
    let peer = file("own_input.json", read("peer.json"));
    let folder = std::path::Path::new(&peer).parent().unwrap().to_str().unwrap();
    for name in [peer.clone(), format!("{folder}/./own_input.json")] {
        let made = make(&name, &[("--peer", &peer)]);
        let why = "basinpantry: -o is the file of --peer, which would be overwritten; try: basinpantry case --help\n";
        assert_eq!((made.status, made.out.as_str(), made.err.as_str()), (2, "", why), "{name}");
    }
    assert_eq!(std::fs::read_to_string(&peer).unwrap(), read("peer.json"));
    let out = file("own_output.case", "");
    assert_eq!(make(&out, &[("--peer", &peer)]).status, 0);
    let made = make("-", &[("--peer", &peer)]);
    assert_eq!((made.status, made.err.as_str()), (0, ""));
    assert_eq!(made.out, String::from_utf8_lossy(&std::fs::read(&out).unwrap()));
    assert!(!common::examples().join("-").exists());
}
