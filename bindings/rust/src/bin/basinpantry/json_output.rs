//! What `--json` prints: an object in one line. A number of CKB (shannons, tokens, indexes and sizes in it) is a string of 0x and hex digits, as in CKB's own JSON,
//! so that no reader rounds it, with a - in front where it is below zero; this program's own numbers and counts are plain.
use crate::case_parts::{Account, Figures, Record, input_part, ours_of, output_part, record};
use crate::files::Input;
use crate::notes::{data_entries, repeats};
use crate::replay_cases::Replayed;
use crate::show::Shown;
use crate::words;
use basinpantry::{Accepted, CaseFile, CellDep, CellInput, CellOutput, OutPoint, Refusal, Script, Total, Transaction};
use std::fmt::Write;

/// A string.
fn text(s: &str) -> String {
    let mut out = String::with_capacity(s.len() + 2);
    out.push('"');
    for c in s.chars() {
        match c {
            '"' | '\\' => out.extend(['\\', c]),
            c if c.is_control() => {
                // a control character is one unit of UTF-16
                let _ = write!(out, "\\u{:04x}", u32::from(c));
            }
            c => out.push(c),
        }
    }
    out.push('"');
    out
}

fn bytes(s: &[u8]) -> String {
    text(&words::hex(s, true))
}

fn hex(n: impl std::fmt::LowerHex) -> String {
    format!("\"{n:#x}\"")
}

fn list(items: impl Iterator<Item = String>) -> String {
    let mut out = "[".to_string();
    for item in items {
        if out.len() > 1 {
            out.push(',');
        }
        out += &item;
    }
    out.push(']');
    out
}

fn object<const N: usize>(fields: [(&str, String); N]) -> String {
    let mut out = "{".to_string();
    for (name, value) in fields {
        if out.len() > 1 {
            out.push(',');
        }
        out += &text(name);
        out.push(':');
        out += &value;
    }
    out.push('}');
    out
}

fn or_null(value: Option<String>) -> String {
    value.unwrap_or_else(|| "null".to_string())
}

fn out_point(point: &OutPoint) -> String {
    object([("tx_hash", bytes(point.tx_hash.as_ref())), ("index", hex(point.index))])
}

fn script(script: &Script) -> String {
    object([
        ("code_hash", bytes(script.code_hash.as_ref())),
        ("hash_type", text(&script.hash_type.to_string())),
        ("args", bytes(&script.args)),
    ])
}

fn output(output: &CellOutput) -> String {
    object([("capacity", hex(output.capacity)), ("lock", script(&output.lock)), ("type", or_null(output.type_.as_ref().map(script)))])
}

fn input(input: &CellInput) -> String {
    object([("since", hex(input.since)), ("previous_output", out_point(&input.previous_output))])
}

fn cell_dep(dep: &CellDep) -> String {
    object([("out_point", out_point(&dep.out_point)), ("dep_type", text(&dep.dep_type.to_string()))])
}

/// A transaction as CKB's RPC prints it.
fn transaction(tx: &Transaction) -> String {
    object([
        ("version", hex(tx.version)),
        ("cell_deps", list(tx.cell_deps.iter().map(cell_dep))),
        ("header_deps", list(tx.header_deps.iter().map(|hash| bytes(hash.as_ref())))),
        ("inputs", list(tx.inputs.iter().map(input))),
        ("outputs", list(tx.outputs.iter().map(output))),
        ("outputs_data", list(tx.outputs_data.iter().map(|data| bytes(data)))),
        ("witnesses", list(tx.witnesses.iter().map(|witness| bytes(witness)))),
    ])
}

/// The answer to a case.
pub fn verdict(case: &CaseFile, answer: &Result<Accepted, Refusal>) -> String {
    match answer {
        Ok(accepted) => object([
            ("accepted", "true".to_string()),
            ("number", "0".to_string()),
            ("name", text("Accepted")),
            ("sentence", text("the update is accepted")),
            ("reason", "null".to_string()),
            ("values", "{}".to_string()),
            ("surplus", surplus(Total::from(accepted.capacity), Total::from(accepted.token))),
        ]),
        Err(why) => {
            let values: Vec<String> =
                why.value_names().iter().zip(why.values()).map(|(name, value)| format!("{}:{}", text(name), hex(value))).collect();
            object([
                ("accepted", "false".to_string()),
                ("number", why.number().to_string()),
                ("name", text(why.name())),
                ("sentence", text(why.sentence())),
                ("reason", or_null(case.reason(why).map(|reason| text(&reason)))),
                ("values", format!("{{{}}}", values.join(","))),
                ("surplus", "null".to_string()),
            ])
        }
    }
}

fn surplus(capacity: Total, token: Total) -> String {
    object([("capacity", hex(capacity)), ("token", hex(token))])
}

fn account(account: &Account) -> String {
    let [put_in, growth, taken_back, surplus] = account.lines().map(|line| text(&line.signed(|n| format!("{n:#x}"))));
    object([("put_in", put_in), ("growth", growth), ("taken_back", taken_back), ("surplus", surplus)])
}

/// A part of a case: its size, and what it is, or null where it is unreadable.
fn part(name: &str, bytes: &[u8], read: Option<String>) -> String {
    object([("size", bytes.len().to_string()), (name, or_null(read))])
}

fn script_part(bytes: &[u8]) -> String {
    part("script", bytes, Script::from_bytes(bytes).as_ref().map(script))
}

fn record_of(case: &CaseFile, k: usize) -> String {
    let (state, cell) = match record(case, k) {
        Record::Live(cell) => ("live", Some(cell)),
        Record::NotLive => ("not live", None),
        Record::Unreadable => ("unreadable", None),
        Record::Missing => ("missing", None),
    };
    let cell = cell.map(|cell| object([("output", output(&cell.output)), ("data", bytes(&cell.data))]));
    object([("state", text(state)), ("cell", or_null(cell))])
}

fn case_of(case: &CaseFile) -> String {
    let (ours, peer) = (ours_of(case), Transaction::from_bytes(&case.peer));
    let mut notes = Vec::new();
    let (mut inputs, mut outputs, mut figures) = (None, None, None);
    if let (Some(ours), Some(peer)) = (&ours, &peer) {
        notes.extend(repeats(ours, peer, true));
        notes.extend(data_entries(peer));
        inputs = Some(list((0..peer.inputs.len()).map(|i| {
            let record = i.checked_sub(ours.inputs.len()).map(|k| record_of(case, k));
            object([("part", text(input_part(ours, peer, i))), ("record", or_null(record))])
        })));
        outputs = Some(list((0..peer.outputs.len()).map(|i| object([("part", text(output_part(ours, peer, i)))]))));
        let found = Figures::of(case, ours, peer);
        figures = Some(object([
            ("capacity", account(&found.capacity)),
            ("token", or_null(found.token.as_ref().map(account))),
            ("required_fee", or_null(found.required_fee.map(hex))),
        ]));
    }
    let ours = case.ours.as_ref().map(|bytes| part("transaction", bytes, ours.as_ref().map(transaction)));
    object([
        ("ours", or_null(ours)),
        ("peer", part("transaction", &case.peer, peer.as_ref().map(transaction))),
        ("funding_lock", script_part(&case.lock)),
        ("token_type", or_null(case.udt.as_deref().map(script_part))),
        ("source_lock", script_part(&case.source)),
        ("fee_rate", hex(case.rate)),
        ("records", case.records.len().to_string()),
        ("inputs", or_null(inputs)),
        ("outputs", or_null(outputs)),
        ("figures", or_null(figures)),
        ("notes", list(notes.iter().map(|note| text(note)))),
        ("verdict", verdict(case, &case.judge())),
    ])
}

/// What `show --json` prints.
pub fn shown(shown: &Shown) -> String {
    match shown {
        Shown::Transaction(tx, size) => object([("size", size.to_string()), ("transaction", transaction(tx))]),
        Shown::Case(case) => case_of(case),
    }
}

/// What `replay --json` prints.
pub fn replayed(files: &[Input], replayed: &Replayed) -> String {
    let updates = files
        .iter()
        .zip(&replayed.updates)
        .map(|(file, (case, answer))| object([("file", text(&file.name)), ("verdict", verdict(case, answer))]));
    let in_force = replayed.in_force.and_then(|k| files.get(k)).map(|file| text(&file.name));
    object([
        ("updates", list(updates)),
        ("accepted", replayed.accepted().to_string()),
        ("surplus", surplus(replayed.capacity, replayed.token)),
        ("in_force", or_null(in_force)),
    ])
}

#[cfg(test)]
mod tests {
    use super::text;

    #[test]
    fn strings() {
        let all: String = ('\0'..'\u{ff}').chain(['\u{1f600}', '\u{2028}']).collect();
        let written = text(&all);
        assert!(basinpantry::json::is_json(&written), "{written}");
        assert_eq!(text("a\"b\\c\n"), "\"a\\\"b\\\\c\\u000a\"");
    }
}
