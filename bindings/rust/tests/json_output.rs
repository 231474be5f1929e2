//! What `--json` prints, and `judge`, which does in one step what `case` and `check` do in two.
mod common;

use basinpantry::{CaseFile, Transaction, json};
use common::{cases, file, make, read, run, run_with};

#[test]
fn verdicts() {
    for (name, status, line) in [
        (
            "first",
            0,
            r#"{"accepted":true,"number":0,"name":"Accepted","sentence":"the update is accepted","reason":null,"values":{},"surplus":{"capacity":"0xcd","token":"0x0"}}"#,
        ),
        (
            "low_fee",
            1,
            r#"{"accepted":false,"number":8,"name":"PeerFundingFeeTooLow","sentence":"the fee is too low","reason":null,"values":{"peer_fee":"0xcc","required_fee":"0xcd","funding_fee_rate":"0x3e8","tx_size":"0xcd"},"surplus":null}"#,
        ),
        (
            "our_lock",
            1,
            r#"{"accepted":false,"number":6,"name":"PeerInputUsesOurFundingLock","sentence":"an input that the peer added spends a cell under our own source lock","reason":null,"values":{"input_index":"0x2"},"surplus":null}"#,
        ),
        (
            "outputs_4",
            1,
            r#"{"accepted":false,"number":4,"name":"PeerFundingTxExceedsLimit","sentence":"the peer's transaction is over the size limit, or adds too many inputs, outputs, cell deps or header deps","reason":"it adds 4 outputs, and 3 are allowed","values":{},"surplus":null}"#,
        ),
    ] {
        let ran = run(&["check", "--json", &format!("cases/{name}.case")]);
        assert_eq!((ran.status, ran.out, ran.err.as_str()), (status, format!("{line}\n"), ""), "{name}");
    }
    let ran = run(&["check", "--json", "--line", "cases/first.case"]);
    assert_eq!(
        (ran.status, ran.err.as_str()),
        (2, "basinpantry: --line and --json can't both be printed; try: basinpantry check --help\n")
    );
    // a bad file is told on standard error, as without it
    let ran = run_with(&["check", "--json", "-"], b"abc");
    assert_eq!((ran.status, ran.out.as_str()), (2, ""));
}

/// An amount beyond 2^53, of which no digit is lost.
#[test]
fn wide_figures() {
    let records = read("records.json").replacen("0x88130000000000000000000000000000", "0xffffffffffffffffffffffffffffffff", 1);
    let out = file("wide.case", "");
    make(&out, &[("--records", &file("wide.json", records))]);
    let verdict = run(&["check", "--json", &out]).out;
    // 2^128 - 1 less 5000
    assert!(verdict.contains("\"token\":\"0xffffffffffffffffffffffffffffec77\""), "{verdict}");
}

/// The transaction that is shown is read again, whatever it has.
#[test]
fn shown_transactions() {
    for name in ["token_output.tx", "one_output.tx"] {
        let bytes = std::fs::read(common::examples().join(name)).unwrap();
        let ran = run(&["show", "--json", name]);
        assert_eq!((ran.status, ran.err.as_str()), (0, ""));
        assert!(ran.out.starts_with(&format!("{{\"size\":{},\"transaction\":{{\"version\":\"0x0\",", bytes.len())), "{}", ran.out);
        assert_eq!(json::transaction(&ran.out), Ok(Transaction::from_bytes(&bytes).unwrap()));
    }
    assert_eq!(run(&["show", "--json", "json/peer.json"]).status, 0);
}

#[test]
fn shown_cases() {
    let ran = run(&["show", "--json", "cases/our_lock.case"]);
    assert_eq!(ran.status, 0);
    for part in [
        r#"{"ours":{"size":245,"transaction":{"version":"0x0","#,
        r#""peer":{"size":333,"transaction":{"version":"0x0","#,
        r#""token_type":null,"#,
        r#""fee_rate":"0x3e8","records":2,"inputs":[{"part":"shared","record":null},{"part":"shared","record":null},{"part":"added","record":{"state":"live","cell":{"output":{"capacity":"0x5","#,
        r#"{"part":"added","record":{"state":"not live","cell":null}}],"outputs":[{"part":"funding"}],"figures":{"capacity":{"put_in":"0x5","growth":"0x0","taken_back":"0x0","surplus":"0x5"},"token":null,"required_fee":null},"notes":[],"verdict":{"accepted":false,"number":6,"#,
    ] {
        assert!(ran.out.contains(part), "{part}: {}", ran.out);
    }
    // each case's figures, and the verdict that check prints
    for (path, bytes, _) in cases() {
        let path = path.to_str().unwrap();
        let shown = run(&["show", "--json", path]).out;
        assert!(json::is_json(&shown), "{shown}");
        assert!(shown.ends_with(&format!("\"verdict\":{}}}\n", run(&["check", "--json", path]).out.trim_end())), "{shown}");
        if let Ok(accepted) = CaseFile::from_bytes(&bytes).unwrap().judge() {
            assert!(shown.contains(&format!("\"surplus\":\"{:#x}\"}},\"token\":", accepted.capacity)), "{shown}");
        }
    }
    // below zero, unreadable, noted
    let mut case = CaseFile::from_bytes(&cases()[0].1).unwrap();
    case.records.clear();
    case.source = vec![1];
    let shown = run(&["show", "--json", &file("odd.case", case.to_bytes().unwrap())]).out;
    assert!(shown.contains("\"surplus\":\"-0x") && shown.contains("\"source_lock\":{\"size\":1,\"script\":null}"), "{shown}");
    assert!(shown.contains("{\"state\":\"missing\",\"cell\":null}"), "{shown}");
    case.peer = vec![1, 2];
    let shown = run(&["show", "--json", &file("odd.case", case.to_bytes().unwrap())]).out;
    assert!(shown.contains("\"peer\":{\"size\":2,\"transaction\":null}") && shown.contains("\"figures\":null"), "{shown}");
}

#[test]
fn replayed() {
    let names = ["cases/first.case", "cases/low_fee.case", "cases/itself.case"];
    let ran = run(&[&["replay", "--json"][..], &names].concat());
    assert_eq!((ran.status, ran.err.as_str()), (1, ""));
    let start = r#"{"updates":[{"file":"cases/first.case","verdict":{"accepted":true,"number":0,"#;
    let end = "],\"accepted\":2,\"surplus\":{\"capacity\":\"0xcd\",\"token\":\"0x0\"},\"in_force\":\"cases/itself.case\"}\n";
    assert!(ran.out.starts_with(start) && ran.out.ends_with(end) && json::is_json(&ran.out), "{}", ran.out);
    assert!(ran.out.contains(r#""reason":"0 inputs were added, and 1 record was lent""#), "{}", ran.out);
    let ran = run(&["replay", "--json", "cases/low_fee.case"]);
    assert!(ran.out.ends_with("\"in_force\":null}\n"), "{}", ran.out);
}

/// One step is two.
#[test]
fn judged() {
    let parts = |peer: &'static str| {
        [
            "--ours=json/ours.json",
            "--lock=json/funding_lock.json",
            "--type=json/token_type.json",
            "--source=json/source_lock.json",
            "--rate=1000",
        ]
        .into_iter()
        .chain([peer])
        .collect::<Vec<_>>()
    };
    for peer in ["--peer=json/peer.json", "--peer=json/greedy_peer.json"] {
        for records in [&["--records=json/records.json"][..], &[]] {
            let words = [parts(peer), records.to_vec()].concat();
            let made = run(&[&["case", "-o", &file("judged.case", "")][..], &words].concat());
            for flags in [&[][..], &["--json"]] {
                let checked = run(&[&["check", &file_of(&made.out)][..], flags].concat());
                let judged = run(&[&["judge"][..], &words, flags].concat());
                assert_eq!((judged.status, judged.out, &judged.err), (checked.status, checked.out, &made.err), "{peer} {records:?}");
            }
        }
    }
    let ran = run(&["judge", "-o", "x"]);
    assert_eq!((ran.status, ran.err.as_str()), (2, "basinpantry: there is no option -o; try: basinpantry judge --help\n"));
    let ran = run(&["judge"]);
    assert_eq!((ran.status, ran.err.as_str()), (2, "basinpantry: --rate is missing; try: basinpantry judge --help\n"));
}

/// The file that `case` says it wrote.
fn file_of(out: &str) -> String {
    out.rsplit_once(": ").unwrap().0.to_string()
}
