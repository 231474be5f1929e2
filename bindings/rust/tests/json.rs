//! From a node's JSON to a case, and what is said of bad JSON.
mod common;

use basinpantry::{CaseFile, CellDep, CellInput, CellOutput, DepType, H256, HashType, OutPoint, Script, Transaction};
use common::{Ran, file, make, read, run};

#[test]
fn two_commands() {
    for (peer, status, sentence) in [
        (
            "json/peer.json",
            0,
            "accepted: the peer puts in 1000 shannons (0.00001000 CKB) and 0 tokens more than the growth of output 0 and the outputs that it added\n",
        ),
        (
            "json/greedy_peer.json",
            1,
            "refused (5): the peer's funding transaction is invalid: it puts in 5000 tokens, 1 below the growth of output 0 and the outputs that it added\n",
        ),
    ] {
        let out = file(&format!("two_commands_{status}.case"), "");
        let made = make(&out, &[("--peer", peer)]);
        assert_eq!((made.status, made.out, made.err), (0, format!("{out}: 2144 bytes\n"), String::new()));
        let checked = run(&["check", &out]);
        assert_eq!((checked.status, checked.out.as_str(), checked.err.as_str()), (status, sentence, ""));
        // the same through standard output
        let _ = make(&out, &[("--peer", peer)]);
        let shown = run(&["show", &out]).out;
        assert!(shown.ends_with(sentence), "{shown}");
        assert!(shown.contains("  growth of output 0           16200000000  162.00000000    2000\n"), "{shown}");
    }
}

#[test]
fn json_and_molecule_are_one() {
    let out = file("molecule.case", "");
    make(&out, &[]);
    let case = CaseFile::from_bytes(&std::fs::read(&out).unwrap()).unwrap();
    // shown from Molecule as from JSON
    let molecule = file("molecule.peer", &case.peer);
    assert_eq!(run(&["show", &molecule]), run(&["show", "json/peer.json"]));
    assert_eq!(run(&["show", &file("molecule.ours", case.ours.as_ref().unwrap())]), run(&["show", "json/ours.json"]));
    // a case made from Molecule is the same
    let again = file("again.case", "");
    let made = make(
        &again,
        &[
            ("--peer", &molecule),
            ("--ours", &file("again.ours", case.ours.as_ref().unwrap())),
            ("--lock", &file("again.lock", &case.lock)),
            ("--type", &file("again.type", case.udt.as_ref().unwrap())),
            ("--source", &file("again.source", &case.source)),
        ],
    );
    assert_eq!(made.status, 0, "{}", made.err);
    assert_eq!(std::fs::read(&again).unwrap(), std::fs::read(&out).unwrap());
}

const SMALL: &str = r#"{
  "version": "0x1",
  "cell_deps": [
    {"out_point": {"tx_hash": "0x1111111111111111111111111111111111111111111111111111111111111111", "index": "0x2"}, "dep_type": "dep_group"}
  ],
  "header_deps": ["0x2222222222222222222222222222222222222222222222222222222222222222"],
  "inputs": [
    {"previous_output": {"tx_hash": "0x3333333333333333333333333333333333333333333333333333333333333333", "index": "0xffffffff"}, "since": "0xfffffffffffffffe"}
  ],
  "outputs": [
    {
      "capacity": "0x174876e800",
      "lock": {"code_hash": "0x4444444444444444444444444444444444444444444444444444444444444444", "hash_type": "data2", "args": "0xABcd"},
      "type": {"code_hash": "0x5555555555555555555555555555555555555555555555555555555555555555", "hash_type": "data1", "args": "0x"}
    }
  ],
  "outputs_data": ["0x0102"],
  "witnesses": ["0x", "0xff"]
}
"#;

fn small() -> Transaction {
    Transaction {
        version: 1,
        cell_deps: vec![CellDep { out_point: OutPoint { tx_hash: H256([0x11; 32]), index: 2 }, dep_type: DepType::DEP_GROUP }],
        header_deps: vec![H256([0x22; 32])],
        inputs: vec![CellInput { since: u64::MAX - 1, previous_output: OutPoint { tx_hash: H256([0x33; 32]), index: u32::MAX } }],
        outputs: vec![CellOutput {
            capacity: 100_000_000_000,
            lock: Script { code_hash: H256([0x44; 32]), hash_type: HashType::DATA2, args: vec![0xab, 0xcd] },
            type_: Some(Script { code_hash: H256([0x55; 32]), hash_type: HashType::DATA1, args: vec![] }),
        }],
        outputs_data: vec![vec![1, 2]],
        witnesses: vec![vec![], vec![0xff]],
    }
}

/// The bytes that the program makes of a transaction's JSON.
fn peer_bytes(name: &str, text: &str) -> Vec<u8> {
    let out = file(&format!("{name}.case"), "");
    let made = make(&out, &[("--ours", ""), ("--records", ""), ("--peer", &file(&format!("{name}.json"), text))]);
    assert_eq!(made.status, 0, "{}", made.err);
    CaseFile::from_bytes(&std::fs::read(&out).unwrap()).unwrap().peer
}

#[test]
fn every_field() {
    assert_eq!(Transaction::from_bytes(&peer_bytes("every_field", SMALL)), Some(small()));
}

#[test]
fn what_stands_around_a_transaction() {
    let bytes = small().to_bytes();
    let hex: String = bytes.iter().map(|b| format!("{b:02x}")).collect();
    for (name, text) in [
        ("status", format!("{{\"transaction\": {SMALL}, \"tx_status\": {{\"status\": \"committed\"}}, \"cycles\": null}}")),
        ("answer", format!("{{\"jsonrpc\": \"2.0\", \"result\": {{\"transaction\": {SMALL}, \"cycles\": \"0x1\"}}, \"id\": 42}}")),
        ("cli", format!("{{\"transaction\": {SMALL}, \"multisig_configs\": {{}}, \"signatures\": {{}}}}")),
        ("hex", format!("{{\"transaction\": \"0x{hex}\", \"tx_status\": {{}}}}")),
        ("bare_hex", format!("\"0x{hex}\"")),
        ("hash", SMALL.replacen('{', "{\"hash\": \"0x00\",", 1)),
        ("order", SMALL.replacen("  \"version\": \"0x1\",\n", "", 1).replacen("\"witnesses\"", "\"version\": \"0x1\", \"witnesses\"", 1)),
    ] {
        assert_eq!(peer_bytes(name, &text), bytes, "{name}");
    }
}

#[test]
fn two_transactions() {
    for (name, text, beside) in [
        ("and_fields", SMALL.replacen('{', &format!("{{\"transaction\": {SMALL},"), 1), "version"),
        ("and_result", format!("{{\"result\": {SMALL}, \"transaction\": {SMALL}}}"), "result"),
    ] {
        let why = format!("line 1, column 1: beside \"transaction\" stands \"{beside}\", and only one can be meant");
        assert_eq!(complaint(name, text.as_bytes()), why);
    }
}

/// What a failure ends with where the case was there before.
fn still_there(out: &str) -> String {
    format!("basinpantry: note: the old {out} is still there\n")
}

/// The complaint about a peer's transaction, without the file's name.
fn complaint(name: &str, text: &[u8]) -> String {
    let path = file(&format!("bad_{name}.json"), text);
    let out = file("bad.case", "");
    let made = make(&out, &[("--peer", &path)]);
    assert_eq!((made.status, made.out.as_str()), (2, ""), "{name}");
    let start = format!("basinpantry: {path}: ");
    let why = made.err.strip_prefix(&start).unwrap_or_else(|| panic!("{name}: {}", made.err));
    why.strip_suffix(&still_there(&out)).unwrap_or_else(|| panic!("{name}: {}", made.err)).trim_end().to_string()
}

#[test]
fn bad_json() {
    for (name, from, to, why) in [
        ("odd", "\"0x0102\"", "\"0x012\"", "line 17, column 20: odd number of hex digits"),
        ("digit", "\"0x0102\"", "\"0x01g2\"", "line 17, column 25: 'g' is no hex digit"),
        ("wide_character", "\"0x0102\"", "\"0x01\u{e9}\"", "line 17, column 25: '\u{e9}' is no hex digit"),
        ("escaped", "\"0x0102\"", "\"\\u0030x01g2\"", "line 17, column 20: 'g' is no hex digit"),
        ("prefix", "\"0x0102\"", "\"0102\"", "line 17, column 20: bytes begins with 0x"),
        (
            "not_a_string",
            "\"0x0102\"",
            "258",
            "line 17, column 20: bytes as a string of 0x and hex digits is expected, not a number without quotes",
        ),
        ("missing", "  \"outputs_data\": [\"0x0102\"],\n", "", "line 1, column 1: the field \"outputs_data\" is missing"),
        ("missing_inside", ", \"args\": \"0xABcd\"", "", "line 13, column 15: the field \"args\" is missing"),
        ("unknown", "\"type\": {", "\"typ\": {", "line 14, column 7: there is no field \"typ\" here"),
        (
            "twice",
            "\"version\": \"0x1\"",
            "\"version\": \"0x1\", \"version\": \"0x1\"",
            "line 2, column 21: the field \"version\" stands here a second time",
        ),
        ("no_list", "[\"0x0102\"]", "\"0x0102\"", "line 17, column 19: a list is expected, not a string"),
        (
            "no_object",
            "\"outputs_data\": [\"0x0102\"]",
            "\"outputs_data\": [], \"outputs\": [], \"x\": 1",
            "line 17, column 23: the field \"outputs\" stands here a second time",
        ),
        (
            "null_lock",
            "{\"code_hash\": \"0x4444444444444444444444444444444444444444444444444444444444444444\", \"hash_type\": \"data2\", \"args\": \"0xABcd\"}",
            "null",
            "line 13, column 15: an object is expected, not null",
        ),
        ("version", "\"0x1\"", "\"0x100000000\"", "line 2, column 14: the number is over 32 bits"),
        ("index", "\"0xffffffff\"", "\"0x1ffffffff\"", "line 8, column 116: the number is over 32 bits"),
        ("since", "\"0xfffffffffffffffe\"", "\"0x10000000000000000\"", "line 8, column 140: the number is over 64 bits"),
        ("zeros", "\"0x174876e800\"", "\"0x00174876e800\"", "line 12, column 19: a number has no zeros in front"),
        ("no_digit", "\"0x174876e800\"", "\"0x\"", "line 12, column 19: a number has a digit after 0x"),
        ("decimal", "\"0x174876e800\"", "\"100000000000\"", "line 12, column 19: a number begins with 0x"),
        (
            "plain_number",
            "\"0x174876e800\"",
            "100000000000",
            "line 12, column 19: a number as a string of 0x and hex digits is expected, not a number without quotes",
        ),
        (
            "short_hash",
            "\"0x2222222222222222222222222222222222222222222222222222222222222222\"",
            "\"0x22\"",
            "line 6, column 19: a hash has 32 bytes, and this has 1",
        ),
        ("hash_type", "\"data2\"", "\"data3\"", "line 13, column 112: hash_type is one of data, type, data1, data2, not \"data3\""),
        ("dep_type", "\"dep_group\"", "\"group\"", "line 4, column 130: dep_type is one of code, dep_group, not \"group\""),
        ("comma", "\"0x1\",\n", "\"0x1\"\n", "line 3, column 3: a comma or } is expected, not '\"'"),
        (
            "end",
            "\"witnesses\": [\"0x\", \"0xff\"]\n}\n",
            "\"witnesses\": [\"0x\", \"0xff\"",
            "line 18, column 29: a comma or ] is expected, and the text ends",
        ),
    ] {
        let text = SMALL.replacen(from, to, 1);
        assert_ne!(text, SMALL, "{name}");
        assert_eq!(complaint(name, text.as_bytes()), why, "{name}");
    }
}

#[test]
fn bad_files() {
    assert_eq!(complaint("utf8", b"{\"version\": \"0x\xff\"}"), "line 1, column 16: the text is not UTF-8 from here on");
    assert_eq!(complaint("list", b"[]"), "line 1, column 1: an object is expected, not a list");
    assert_eq!(
        complaint("unknown_tx", b"{\"transaction\": null, \"tx_status\": {}}"),
        "line 1, column 17: the node knows no such transaction: null"
    );
    assert_eq!(
        complaint("error", b"{\"jsonrpc\": \"2.0\", \"error\": {\"code\": -3}, \"id\": 1}"),
        "line 1, column 29: the node answered with an error: -3"
    );
    assert_eq!(
        complaint("no_result", b"{\"jsonrpc\": \"2.0\", \"error\": null, \"id\": 1}"),
        "line 1, column 1: the node answered without a \"result\""
    );
    // an error counts, whatever stands beside it
    assert_eq!(
        complaint(
            "error_and_null",
            b"{\"jsonrpc\": \"2.0\", \"result\": null, \"error\": {\"code\": -32602, \"message\": \"Invalid params\"}, \"id\": 1}"
        ),
        "line 1, column 45: the node answered with an error: -32602: Invalid params"
    );
    assert_eq!(complaint("error_text", b"{\"error\": \"busy\\nnow\"}"), "line 1, column 11: the node answered with an error: busy now");
    assert_eq!(complaint("null", b"null"), "line 1, column 1: the node knows no such transaction: null");
    assert_eq!(complaint("hex", b"{\"transaction\": \"0x1234\"}"), "line 1, column 17: these bytes are no transaction");
    assert_eq!(complaint("deep", "[".repeat(1_000_000).as_bytes()), "line 1, column 65: nested over 64 levels");
    assert_eq!(complaint("neither", &[4, 0, 0, 0]), "neither the bytes of a transaction nor JSON");
    assert_eq!(complaint("empty", b""), "neither the bytes of a transaction nor JSON");
}

/// Texts that are nearly JSON, where a transaction, records or a case file is wanted.
#[test]
fn texts_of_another_kind() {
    let mark = "the text begins with a byte order mark, which JSON has not; save it as UTF-8 without one";
    let yaml = "the text looks like YAML, not JSON; ckb-cli prints JSON with --output-format json";
    let marked = format!("\u{feff}{SMALL}");
    for (name, text, why) in [("mark", marked.as_str(), mark), ("yaml", "version: 0x0\ncell_deps: []\n", yaml)] {
        assert_eq!(complaint(name, text.as_bytes()), format!("line 1, column 1: {why}"));
        let path = file(&format!("kind_{name}.txt"), text);
        assert_eq!(run(&["show", &path]).err, format!("basinpantry: {path}: line 1, column 1: {why}\n"));
        assert_eq!(run(&["check", &path]).err, format!("basinpantry: {path}: no case file: {why}\n"));
        assert!(with_records(name, text).err.contains(&format!("line 1, column 1: {why}\n")));
    }
}

/// Verbosity 1 of `get_transaction` has the status alone.
#[test]
fn without_the_transaction() {
    for (status, why) in [
        ("pending", "the node was asked without the transaction; ask with verbosity 0 or 2"),
        ("committed", "the node was asked without the transaction; ask with verbosity 0 or 2"),
        ("unknown", "the node knows no such transaction: null"),
        ("rejected", "the node knows no such transaction: null"),
    ] {
        let text = format!("{{\"transaction\": null, \"tx_status\": {{\"status\": \"{status}\"}}}}");
        assert_eq!(complaint(status, text.as_bytes()), format!("line 1, column 17: {why}"));
    }
}

/// What `case` says where the records are these.
fn with_records(name: &str, text: &str) -> Ran {
    let out = file(&format!("records_{name}.case"), "");
    make(&out, &[("--records", &file(&format!("records_{name}.json"), text))])
}

fn records_of(name: &str, text: &str) -> Vec<Option<basinpantry::CaseRecord>> {
    let made = with_records(name, text);
    assert_eq!(made.status, 0, "{}", made.err);
    let path = made.out.split(':').next().unwrap();
    CaseFile::from_bytes(&std::fs::read(path).unwrap()).unwrap().records
}

#[test]
fn records() {
    let entry = read("records.json").trim().trim_start_matches('[').trim_end_matches(']').trim().to_string();
    let expected = records_of("plain", &format!("[{entry}]"));
    assert_eq!(expected.len(), 1);
    // as get_live_cell answers
    let output = &entry[entry.find("\"output\"").unwrap()..entry.rfind(',').unwrap()];
    let data = "\"data\": {\"content\": \"0x88130000000000000000000000000000\", \"hash\": \"0x00\"}";
    let live = format!("{{\"cell\": {{{output}, {data}}}, \"status\": \"live\"}}");
    assert_eq!(records_of("live", &format!("[{live}]")), expected);
    assert_eq!(records_of("answer", &format!("[{{\"jsonrpc\": \"2.0\", \"result\": {live}, \"id\": 1}}]")), expected);
    // not live
    for (name, entry) in [
        ("null", "null"),
        ("unknown", "{\"cell\": null, \"status\": \"unknown\"}"),
        ("dead", "{\"status\": \"dead\"}"),
        ("answer_null", "{\"jsonrpc\": \"2.0\", \"result\": null, \"id\": 1}"),
        ("answer_dead", "{\"jsonrpc\": \"2.0\", \"result\": {\"cell\": null, \"status\": \"dead\"}, \"error\": null, \"id\": 1}"),
    ] {
        assert_eq!(records_of(name, &format!("[{entry}]")), [None], "{name}");
    }
    // too few or too many are judged, and noted
    let made = with_records("none", "[]");
    assert_eq!((made.status, made.err.as_str()), (0, "basinpantry: note: 1 input was added, and 0 records were given\n"));
    let made = with_records("many", "[null, null]");
    assert_eq!((made.status, made.err.as_str()), (0, "basinpantry: note: 1 input was added, and 2 records were given\n"));
}

const NODE_ERROR: &str = "\"error\": {\"code\": -301, \"message\": \"Database: closed\", \"data\": null}";

#[test]
fn bad_records() {
    let entry = read("records.json");
    for (name, text, why) in [
        (
            "object",
            "{}".to_string(),
            "line 1, column 1: a list of records, or an answer of get_live_cell or get_cells, is expected, not an object",
        ),
        ("number", "[1]".to_string(), "line 1, column 2: an object is expected, not a number without quotes"),
        ("no_cell", "[{\"status\": \"live\"}]".to_string(), "line 1, column 2: the cell is live, and the field \"cell\" is missing"),
        ("status", "[{\"status\": \"lost\"}]".to_string(), "line 1, column 13: status is one of live, dead, unknown, not \"lost\""),
        (
            "other_point",
            entry.replacen("0x4\"", "0x5\"", 1),
            "line 2, column 3: this record is of 0x5ba156200c6310bf140fbbd3bfe7e8f03d4d5f82b612c1a8ec2501826eaabc17:5, and added input 1 spends 0x5ba156200c6310bf140fbbd3bfe7e8f03d4d5f82b612c1a8ec2501826eaabc17:4",
        ),
        (
            "data",
            entry.replacen("\"0x88130000000000000000000000000000\"", "null", 1),
            "line 20, column 13: the cell's data is missing: ask the node for the cell with its data",
        ),
        (
            "error",
            format!("[{{\"jsonrpc\": \"2.0\", \"result\": null, {NODE_ERROR}, \"id\": 1}}]"),
            "line 1, column 46: the node answered with an error: -301: Database: closed",
        ),
        (
            "failed",
            format!("[{{\"jsonrpc\": \"2.0\", {NODE_ERROR}}}]"),
            "line 1, column 30: the node answered with an error: -301: Database: closed",
        ),
        (
            "failed_batch",
            format!("{{\"jsonrpc\": \"2.0\", {NODE_ERROR}}}"),
            "line 1, column 29: the node answered with an error: -301: Database: closed",
        ),
        ("no_result", "[{\"jsonrpc\": \"2.0\", \"id\": 1}]".to_string(), "line 1, column 2: the node answered without a \"result\""),
        ("capacity", entry.replacen("\"0x9502f9000\"", "\"0x1ffffffffffffffff\"", 1), "line 8, column 19: the number is over 64 bits"),
    ] {
        let made = with_records(name, &text);
        assert_eq!((made.status, made.out.as_str()), (2, ""), "{name}");
        assert!(made.err.contains(&format!("records_{name}.json: {why}\n")), "{name}: {}", made.err);
    }
}

/// JSON where a case file is wanted, and a script where a transaction is.
#[test]
fn another_kind_of_file() {
    for words in [&["check", "json/peer.json"][..], &["replay", "json/peer.json"], &["replay", "cases/first.case", "json/peer.json"]] {
        let ran = run(words);
        let why = "basinpantry: json/peer.json: this is JSON; make a case file of it with `basinpantry case`, or judge it with `basinpantry judge`\n";
        assert_eq!((ran.status, ran.out.as_str(), ran.err.as_str()), (2, "", why), "{words:?}");
    }
    assert_eq!(run(&["check", "--line", "json/peer.json"]).out, "3\n");
    let ran = run(&["show", "json/funding_lock.json"]);
    let why = "basinpantry: json/funding_lock.json: line 1, column 1: this is a script, not a transaction\n";
    assert_eq!((ran.status, ran.out.as_str(), ran.err.as_str()), (2, "", why));
    let path = file("another_kind.script", Script::default().to_bytes());
    assert_eq!(run(&["show", &path]).err, format!("basinpantry: {path}: this is a script, not a transaction\n"));
    assert_eq!(complaint("script", read("funding_lock.json").as_bytes()), "line 1, column 1: this is a script, not a transaction");
}

#[test]
fn scripts() {
    let path = file("script.json", "{\"code_hash\": \"0x00\", \"hash_type\": \"type\", \"args\": \"0x\"}");
    let out = file("script.case", "");
    let made = make(&out, &[("--lock", &path)]);
    let why = format!("basinpantry: {path}: line 1, column 15: a hash has 32 bytes, and this has 1\n");
    assert_eq!(made.err, why + &still_there(&out));
    let made = make(&out, &[("--source", &file("script.bin", [1, 2, 3]))]);
    assert!(made.err.contains("script.bin: neither the bytes of a script nor JSON\n"), "{}", made.err);
}
