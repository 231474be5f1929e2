//! The program's commands: what they print, and their exit status.
mod common;

use common::{cases, file, run, run_with};

#[test]
fn help() {
    for (words, start) in [
        (&["--help"][..], "basinpantry judges the funding transactions"),
        (&["check", "--help"], "basinpantry check [--line | --json] CASE\n"),
        (&["case", "--help"], "basinpantry case --peer FILE"),
        (&["judge", "--help"], "basinpantry judge --peer FILE"),
        (&["show", "-h"], "basinpantry show [--full | --json] FILE\n"),
        (&["replay", "--help"], "basinpantry replay [--json] CASE...\n"),
    ] {
        let ran = run(words);
        assert_eq!((ran.status, ran.err.as_str()), (0, ""), "{words:?}");
        assert!(ran.out.starts_with(start), "{words:?}: {}", ran.out);
    }
}

#[test]
fn help_by_name() {
    for name in ["judge", "check", "case", "show", "replay"] {
        assert_eq!(run(&["help", name]), run(&[name, "--help"]), "{name}");
    }
    assert_eq!(run(&["help"]), run(&["--help"]));
    let ran = run(&["help", "him"]);
    assert_eq!((ran.status, ran.err.as_str()), (2, "basinpantry: there is no command him; try: basinpantry --help\n"));
    let version = format!("basinpantry {}\n", env!("CARGO_PKG_VERSION"));
    assert_eq!((run(&["-V"]).out, run(&["--version"]).out), (version.clone(), version));
}

/// An option and its value in one word.
#[test]
fn values_behind_a_sign() {
    let parts = ["--peer=json/peer.json", "--lock=json/funding_lock.json", "--source=json/source_lock.json"];
    let joined = run(&[&["case", "--rate=1000"][..], &parts].concat());
    assert_eq!(joined.status, 0, "{}", joined.err);
    let apart: Vec<&str> = parts.iter().flat_map(|part| part.split('=')).collect();
    assert_eq!(run(&[&["case", "--rate", "1000"][..], &apart].concat()), joined);
    for (words, why) in [
        (&["case", "--rate="][..], "--rate needs a number; try: basinpantry case --help"),
        (&["case", "--rate=x"], "--rate is a number below 2^64, not x; try: basinpantry case --help"),
        (&["case", "--rate=1", "--rate=2"], "--rate stands twice; try: basinpantry case --help"),
        (&["case", "--peer="], "--peer needs a file; try: basinpantry case --help"),
        (&["check", "--line=1", "a"], "--line takes no value; try: basinpantry check --help"),
        (&["check", "--lines=1", "a"], "there is no option --lines; try: basinpantry check --help"),
        (&["check", "--", "--line=1"], "--line=1: No such file or directory (os error 2)"),
        (&["check", "a=b"], "a=b: No such file or directory (os error 2)"),
    ] {
        let ran = run(words);
        assert_eq!((ran.status, ran.err), (2, format!("basinpantry: {why}\n")), "{words:?}");
    }
}

#[test]
fn bad_usage() {
    for (words, why) in [
        (&["jugde"][..], "basinpantry: there is no command jugde; try: basinpantry --help\n"),
        (&["check"], "basinpantry: no file is named; try: basinpantry check --help\n"),
        (&["check", "a", "b"], "basinpantry: only one file is looked at, not also b; try: basinpantry check --help\n"),
        (&["check", "--lines", "a"], "basinpantry: there is no option --lines; try: basinpantry check --help\n"),
        (&["check", "nowhere.case"], "basinpantry: nowhere.case: No such file or directory (os error 2)\n"),
        (&["show"], "basinpantry: no file is named; try: basinpantry show --help\n"),
        (&["replay"], "basinpantry: no case file is named; try: basinpantry replay --help\n"),
        (&["case"], "basinpantry: --rate is missing; try: basinpantry case --help\n"),
        (&["case", "--rate", "x"], "basinpantry: --rate is a number below 2^64, not x; try: basinpantry case --help\n"),
        (&["case", "--rate", "0x"], "basinpantry: --rate is a number below 2^64, not 0x; try: basinpantry case --help\n"),
        (&["case", "--rate", "+1"], "basinpantry: --rate is a number below 2^64, not +1; try: basinpantry case --help\n"),
        (
            &["case", "--rate", "18446744073709551616"],
            "basinpantry: --rate is a number below 2^64, not 18446744073709551616; try: basinpantry case --help\n",
        ),
        (&["case", "--rate", "1"], "basinpantry: --peer is missing; try: basinpantry case --help\n"),
        (&["case", "--rate"], "basinpantry: --rate needs a number; try: basinpantry case --help\n"),
        (&["case", "--rate", "1", "--rate", "2"], "basinpantry: --rate stands twice; try: basinpantry case --help\n"),
        (&["case", "--ours", "--peer", "x"], "basinpantry: --ours needs a file; try: basinpantry case --help\n"),
        (&["case", "--rate", "-o"], "basinpantry: --rate needs a number; try: basinpantry case --help\n"),
        (&["case", "--peer", "--"], "basinpantry: --peer needs a file; try: basinpantry case --help\n"),
        (
            &["case", "--peer", "-", "--ours", "-"],
            "basinpantry: - is named twice, and standard input can be read only once; try: basinpantry case --help\n",
        ),
        (
            &["replay", "-", "cases/first.case", "-"],
            "basinpantry: - is named twice, and standard input can be read only once; try: basinpantry replay --help\n",
        ),
        (&["check", "--", "--line"], "basinpantry: --line: No such file or directory (os error 2)\n"),
        (&["check", "--", "--help"], "basinpantry: --help: No such file or directory (os error 2)\n"),
        (&["case", "a"], "basinpantry: a belongs to no option; try: basinpantry case --help\n"),
    ] {
        let ran = run(words);
        assert_eq!((ran.status, ran.out.as_str(), ran.err.as_str()), (2, "", why), "{words:?}");
    }
    // no command at all: how it is used
    let ran = run(&[]);
    assert_eq!((ran.status, ran.out.as_str(), ran.err), (2, "", run(&["--help"]).out));
    assert_eq!(run(&["check", "--line", "--", "cases/first.case"]).status, 0);
}

#[test]
fn no_case_file() {
    let ran = run_with(&["check", "-"], b"abc");
    assert_eq!(ran.err, "basinpantry: -: no case file: byte 0: an item begins with a word of 4 bytes, and the file ends within it\n");
    assert_eq!((ran.status, ran.out.as_str()), (2, ""));
    // the line of the check program, all the same
    let ran = run_with(&["check", "--line", "-"], b"abc");
    assert_eq!((ran.status, ran.out.as_str(), ran.err.as_str()), (2, "3\n", ""));
    let ran = run_with(&["show", "-"], b"abc");
    assert_eq!(
        ran.err,
        "basinpantry: -: neither a transaction nor a case file; for a case file: byte 0: an item begins with a word of 4 bytes, and the file ends within it\n"
    );
    assert_eq!(ran.status, 2);
}

#[test]
fn sentences() {
    for (name, sentence) in [
        (
            "first",
            "accepted: the peer puts in 205 shannons (0.00000205 CKB) more than the growth of output 0 and the outputs that it added\n",
        ),
        (
            "low_fee",
            "refused (8): the fee is too low: 204 shannons are paid and 205 are required, at a rate of 1000 shannons per 1000 bytes and a size of 205 bytes\n",
        ),
        ("our_lock", "refused (6): an input that the peer added spends a cell under our own source lock: input 2\n"),
        ("outputs_4", "refused (4): the peer's transaction is over a limit: it adds 4 outputs, and 3 are allowed\n"),
        ("headers_3", "refused (4): the peer's transaction is over a limit: it adds 3 header deps, and 2 are allowed\n"),
        ("token_total", "refused (7): a sum is too wide: the tokens of the added inputs come to 2^128 or more\n"),
    ] {
        assert_eq!(run(&["check", &format!("cases/{name}.case")]).out, sentence);
    }
}

#[test]
fn show_a_case() {
    let ran = run(&["show", "cases/our_lock.case"]);
    assert_eq!(ran.status, 0);
    assert_eq!(
        ran.out,
        "\
ours: version 0, 245 bytes, 2 inputs, 1 output, 0 cell deps, 0 header deps, 0 witnesses
the peer's: version 0, 333 bytes, 4 inputs, 1 output, 0 cell deps, 0 header deps, 0 witnesses
funding lock: 0x00000000..0000 data 0x
token type: none
our source lock: 0x01010101..0101 data 0x
fee rate: 1000 shannons per 1000 bytes

inputs: 4, added 2
  no  part    out point           since  capacity (CKB)  tokens  lock             type
   0  shared  0x00000000..0000:0    0x0
   1  shared  0x00000000..0000:1    0x0
   2  added   0x00000000..0000:2    0x0      0.00000005       -  our source lock  -
   3  added   0x00000000..0000:3    0x0        not live

outputs: 1, added 0
  no  part     capacity (CKB)  tokens  data bytes  lock              type
   0  funding      0.00000100       -           0  the funding lock  -

  what the peer brings         shannons         CKB
  put in by added inputs              5  0.00000005
  growth of output 0                  0  0.00000000
  taken back by added outputs         0  0.00000000
  surplus                             5  0.00000005

refused (6): an input that the peer added spends a cell under our own source lock: input 2
"
    );
}

/// The count of added outputs is the one that the limit is about.
#[test]
fn show_an_opening() {
    let shown = run(&["show", "cases/outputs_4.case"]).out;
    assert!(shown.contains("\noutputs: 4, added 4 (output 0 is the funding cell)\n"), "{shown}");
    assert!(shown.ends_with("it adds 4 outputs, and 3 are allowed\n"), "{shown}");
    let shown = run(&["show", "cases/first.case"]).out;
    assert!(shown.contains("\noutputs: 1, added 1 (output 0 is the funding cell)\n"), "{shown}");
}

/// The surplus in the table is the library's wherever it accepts.
#[test]
fn the_surplus_shown_is_the_one_judged() {
    for (path, bytes, _) in cases() {
        let case = basinpantry::CaseFile::from_bytes(&bytes).unwrap();
        let Ok(accepted) = case.judge() else { continue };
        let out = run(&["show", path.to_str().unwrap()]).out;
        let row = out.lines().find(|line| line.starts_with("  surplus ")).unwrap();
        assert_eq!(row.split_whitespace().nth(1).unwrap(), accepted.capacity.to_string(), "{path:?}");
    }
}

#[test]
fn show_a_transaction() {
    let ran = run(&["show", "token_output.tx"]);
    assert_eq!(ran.status, 0);
    assert_eq!(
        ran.out,
        "\
a transaction of 573 bytes, version 0

inputs: 1
  no  out point           since
   0  0x55555555..5555:1    0x0

outputs: 2
  no  capacity (CKB)  tokens  data bytes  lock                                    type
   0    142.00000000    1000          16  0x11111111..1111 type 0x00010203..1213  0x22222222..2222 type 0xaaaaaaaa..aaaa
   1     61.00000000       -           0  0x11111111..1111 type 0x00010203..1213  -

cell deps: 1
  no  out point           dep type
   0  0x33333333..3333:2  dep_group

header deps: 1
  no  block hash
   0  0x44444444..4444

witnesses: 1
  no  bytes  witness
   0     65  0x00000000..0000
"
    );
    let full = run(&["show", "--full", "token_output.tx"]).out;
    assert!(full.contains(&format!("0x{}:1", "55".repeat(32))), "{full}");
}

#[test]
fn replay() {
    let ran = run(&["replay", "cases/first.case", "cases/low_fee.case", "cases/itself.case"]);
    assert_eq!(
        ran.out,
        "\
cases/first.case: accepted: the peer puts in 205 shannons (0.00000205 CKB) more than the growth of output 0 and the outputs that it added
cases/low_fee.case: refused (3): something that is lent can't be used: 0 inputs were added, and 1 record was lent
cases/itself.case: accepted: the peer puts in 0 shannons (0.00000000 CKB) more than the growth of output 0 and the outputs that it added

accepted: 2 of 3
sum of their surpluses: 205 shannons (0.00000205 CKB)
in force: the peer's transaction of cases/itself.case
"
    );
    assert_eq!((ran.status, ran.err.as_str()), (1, ""));
    let ran = run(&["replay", "cases/low_fee.case"]);
    assert!(
        ran.out.ends_with("\naccepted: 0 of 1\nsum of their surpluses: 0 shannons (0.00000000 CKB)\nin force: none, as at the start\n")
    );
    assert_eq!(ran.status, 1);
    assert_eq!(run(&["replay", "cases/first.case"]).status, 0);
    let ran = run(&["replay", "cases/first.case", "cases/token_total.case"]);
    assert_eq!(ran.err, "basinpantry: cases/token_total.case: its expected token type is not that of cases/first.case\n");
    assert_eq!((ran.status, ran.out.as_str()), (2, ""));
    let ran = run(&["replay", "cases/first.case", &file("no.case", "no case file")]);
    assert_eq!(ran.status, 2);
}

/// The name of a file steers no terminal.
#[test]
fn names_are_plain() {
    let ran = run(&["check", "no\u{1b}[31m.case"]);
    assert_eq!((ran.status, ran.out.as_str()), (2, ""));
    assert!(ran.err.starts_with("basinpantry: no\u{fffd}[31m.case: "), "{}", ran.err);
}

/// Nobody reads what is printed: no panic and no complaint.
#[test]
fn closed_output() {
    use std::process::{Command, Stdio};
    let mut child = Command::new(env!("CARGO_BIN_EXE_basinpantry"))
        .args(["show", "-"])
        .stdin(Stdio::piped())
        .stdout(Stdio::piped())
        .stderr(Stdio::piped())
        .spawn()
        .unwrap();
    drop(child.stdout.take());
    let bytes = &cases()[0].1;
    std::io::Write::write_all(&mut child.stdin.take().unwrap(), bytes).unwrap();
    let output = child.wait_with_output().unwrap();
    assert_eq!((output.status.code(), String::from_utf8_lossy(&output.stderr).as_ref()), (Some(0), ""));
}
