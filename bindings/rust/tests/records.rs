//! Which record belongs to which added input: by place, by the ids of a batch, or by out point.
mod common;

use basinpantry::json::{self, Records};
use basinpantry::{CellInput, H256, OutPoint, Transaction};
use common::{file, make, read};

fn point(index: u32) -> OutPoint {
    OutPoint { tx_hash: H256([7; 32]), index }
}

fn spending(indexes: &[u32]) -> Transaction {
    let input = |index: &u32| CellInput { since: 0, previous_output: point(*index) };
    Transaction { inputs: indexes.iter().map(input).collect(), ..Transaction::default() }
}

/// An output whose capacity tells the cells apart.
fn output(capacity: u64) -> String {
    let lock = format!("{{\"code_hash\": \"0x{}\", \"hash_type\": \"type\", \"args\": \"0x\"}}", "11".repeat(32));
    format!("{{\"capacity\": \"{capacity:#x}\", \"lock\": {lock}, \"type\": null}}")
}

/// What `get_live_cell` answers of a live cell.
fn live(capacity: u64) -> String {
    let data = "{\"content\": \"0x\", \"hash\": \"0x00\"}";
    format!("{{\"cell\": {{\"output\": {}, \"data\": {data}}}, \"status\": \"live\"}}", output(capacity))
}

/// The same as it stands in a batch.
fn answer(id: &str, result: &str) -> String {
    format!("{{\"jsonrpc\": \"2.0\", \"result\": {result}, \"id\": {id}}}")
}

fn batch(answers: &[(&str, u64)]) -> String {
    let answers: Vec<String> = answers.iter().map(|(id, capacity)| answer(id, &live(*capacity))).collect();
    format!("[{}]", answers.join(",\n"))
}

/// The capacities of the records, 0 where the cell is not live.
fn capacities(records: &Records) -> Vec<u64> {
    records.cells.iter().map(|cell| cell.as_ref().map_or(0, |cell| cell.output.capacity)).collect()
}

fn read_for(inputs: &[u32], text: &str) -> Result<Records, String> {
    json::records(text, None, &spending(inputs)).map_err(|why| why.to_string())
}

fn found(inputs: &[u32], text: &str) -> Vec<u64> {
    capacities(&read_for(inputs, text).unwrap_or_else(|why| panic!("{why}: {text}")))
}

#[test]
fn a_batch_in_any_order() {
    assert_eq!(found(&[1, 2, 3], &batch(&[("1", 10), ("2", 20), ("3", 30)])), [10, 20, 30]);
    assert_eq!(found(&[1, 2, 3], &batch(&[("3", 30), ("1", 10), ("2", 20)])), [10, 20, 30]);
    // from 0 on, from elsewhere on, by their numbers and not as text, in quotes
    assert_eq!(found(&[1, 2], &batch(&[("1", 20), ("0", 10)])), [10, 20]);
    assert_eq!(found(&[1, 2, 3], &batch(&[("10", 30), ("8", 10), ("9", 20)])), [10, 20, 30]);
    assert_eq!(found(&[1, 2], &batch(&[("\"10\"", 20), ("\"9\"", 10)])), [10, 20]);
    // where each input has its answer, the order says all
    assert_eq!(found(&[1, 2, 3], &batch(&[("30", 30), ("7", 10), ("18446744073709551615", 40)])), [10, 30, 40]);
    // what is not live stands in its place too
    let text = format!("[{}, {}]", answer("2", &live(20)), answer("1", "{\"cell\": null, \"status\": \"unknown\"}"));
    assert_eq!(found(&[1, 2], &text), [0, 20]);
    // without ids as they stand
    let text = format!("[{}, {}]", answer("null", &live(20)), live(10));
    assert_eq!(found(&[1, 2], &text), [20, 10]);
}

#[test]
fn ids_that_say_nothing() {
    let fails = |inputs: &[u32], text: &str| read_for(inputs, text).expect_err("a complaint");
    assert_eq!(fails(&[1, 2], &batch(&[("1", 10), ("1", 20)])), "line 2, column 1: the id 1 stands a second time");
    assert_eq!(fails(&[1, 2], &batch(&[("1", 10), ("\"1\"", 20)])), "line 2, column 1: the id 1 stands a second time");
    assert_eq!(
        fails(&[1, 2], &batch(&[("1", 10), ("null", 20)])),
        "line 2, column 1: this record has no id, and others have one: which input it is about is not known"
    );
    assert_eq!(
        fails(&[1, 2], &format!("[null,\n{}]", answer("1", &live(10)))),
        "line 1, column 2: this record has no id, and others have one: which input it is about is not known"
    );
    // the answer to the second of four was lost
    assert_eq!(
        fails(&[1, 2, 3, 4], &batch(&[("4", 40), ("1", 10), ("3", 30)])),
        "line 3, column 1: the id 3 follows on 1: an answer between them is missing"
    );
    // one at either end may be meant: it is for the rules to refuse, by their count
    assert_eq!(found(&[1, 2, 3], &batch(&[("2", 20), ("1", 10)])), [10, 20]);
    for id in ["\"a\"", "-1", "1.5", "1e3", "18446744073709551616", "\"0x1\"", "[1]", "\"\"", "true"] {
        let why = fails(&[1], &batch(&[(id, 10)]));
        assert!(why.ends_with("an id is a whole number below 2^64 here, since the answers are put in order by it"), "{id}: {why}");
    }
}

/// The example of two inputs whose answers come in another order: the input to blame is the right one.
#[test]
fn the_right_input_is_blamed() {
    let hash = "0x5ba156200c6310bf140fbbd3bfe7e8f03d4d5f82b612c1a8ec2501826eaabc17";
    let again = format!(", {{\"since\": \"0x0\", \"previous_output\": {{\"tx_hash\": \"{hash}\", \"index\": \"0x5\"}}}}");
    let peer = read("peer.json").replacen("\n    ],\n    \"outputs\"", &format!("{again}],\n    \"outputs\""), 1);
    let peer = file("blamed_peer.json", peer);
    for (name, order) in [("asked", [2, 1]), ("other", [1, 2])] {
        let answers = order.map(|id| match id {
            1 => answer("1", &live(1)),
            _ => answer("2", "{\"cell\": null, \"status\": \"dead\"}"),
        });
        let records = file(&format!("blamed_{name}.json"), format!("[{}]", answers.join(",")));
        let out = file(&format!("blamed_{name}.case"), "");
        assert_eq!(make(&out, &[("--peer", &peer), ("--records", &records)]).err, "");
        let sentence = "refused (5): the peer's funding transaction is invalid: the cell of input 2 is not live\n";
        assert_eq!(common::run(&["check", &out]).out, sentence, "{name}");
    }
}

#[test]
fn a_lone_answer() {
    assert_eq!(found(&[1], &live(10)), [10]);
    assert_eq!(found(&[1], &answer("7", &live(10))), [10]);
    assert_eq!(found(&[1], "{\"cell\": null, \"status\": \"dead\"}"), [0]);
    let why = read_for(&[1], "{\"status\": \"lost\"}").unwrap_err();
    assert_eq!(why, "line 1, column 12: status is one of live, dead, unknown, not \"lost\"");
}

/// A cell as the indexer lists it.
fn listed(index: u32, capacity: u64) -> String {
    let point = format!("{{\"tx_hash\": \"0x{}\", \"index\": \"{index:#x}\"}}", "07".repeat(32));
    format!(
        "{{\"block_number\": \"0x9\", \"out_point\": {point}, \"output\": {}, \"output_data\": \"0x01\", \"tx_index\": \"0x1\"}}",
        output(capacity)
    )
}

#[test]
fn an_indexers_answer() {
    let objects = |cells: &[(u32, u64)]| format!("[{}]", cells.iter().map(|(i, n)| listed(*i, *n)).collect::<Vec<_>>().join(",\n"));
    let answered = |cells: &[(u32, u64)]| answer("1", &format!("{{\"last_cursor\": \"0x00\", \"objects\": {}}}", objects(cells)));
    // by out point, among others and in any order; a cell that is spent twice is one
    let cells = [(9, 90), (3, 30), (1, 10), (2, 20)];
    for text in [answered(&cells), objects(&cells), format!("{{\"objects\": {}, \"last_cursor\": \"0x\"}}", objects(&cells))] {
        let records = read_for(&[1, 2, 3, 1], &text).unwrap();
        assert_eq!((capacities(&records), records.unlisted), (vec![10, 20, 30, 10], vec![]));
    }
    assert_eq!(read_for(&[1], &answered(&cells)).unwrap().cells[0].as_ref().unwrap().data, [1]);
    // not listed is not live; the index is that among all inputs
    let records = json::records(answered(&cells), Some(&spending(&[5])), &spending(&[5, 1, 8])).unwrap();
    assert_eq!((capacities(&records), records.unlisted), (vec![10, 0], vec![2]));
    let records = read_for(&[1], &answered(&[])).unwrap();
    assert_eq!((capacities(&records), records.unlisted), (vec![0], vec![0]));
    let why = read_for(&[1], &objects(&[(1, 10), (1, 10)])).unwrap_err();
    assert_eq!(why, format!("line 2, column 1: the cell {} is listed a second time", point(1)));
    let why = read_for(&[1], &answered(&cells).replacen("\"0x01\"", "null", 1)).unwrap_err();
    assert!(why.ends_with("the cell's data is missing: ask the node for the cells with their data"), "{why}");
    // what the program says of it
    let records = file("unlisted.json", answered(&[]));
    let made = make(&file("unlisted.case", ""), &[("--records", &records)]);
    let point = "0x5ba156200c6310bf140fbbd3bfe7e8f03d4d5f82b612c1a8ec2501826eaabc17:4";
    let note = format!("basinpantry: note: added input 1 spends {point}, which {records} doesn't list: it is taken for not live\n");
    assert_eq!((made.status, made.err), (0, note));
}
