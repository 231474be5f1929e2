//! What a node prints (CKB's RPC, ckb-cli), taken for transactions, scripts and cells.
use super::Error;
use super::text::{Kind, Value, quoted};
use crate::cells::{CellDep, CellInput, CellOutput, OutPoint, Script};
use crate::names::{DepType, HashType};
use crate::transaction::Transaction;

pub(super) fn out_point(value: Value) -> Result<OutPoint, Error> {
    let ([tx_hash, index], []) = value.these_fields(["tx_hash", "index"], [])?;
    Ok(OutPoint { tx_hash: tx_hash.hash()?, index: index.u32()? })
}

fn cell_dep(value: Value) -> Result<CellDep, Error> {
    let ([point, dep_type], []) = value.these_fields(["out_point", "dep_type"], [])?;
    Ok(CellDep { out_point: out_point(point)?, dep_type: dep_type.named("dep_type", DepType::NAMES)? })
}

fn input(value: Value) -> Result<CellInput, Error> {
    let ([since, point], []) = value.these_fields(["since", "previous_output"], [])?;
    Ok(CellInput { since: since.u64()?, previous_output: out_point(point)? })
}

pub(super) fn script(value: Value) -> Result<Script, Error> {
    let ([code_hash, hash_type, args], []) = value.these_fields(["code_hash", "hash_type", "args"], [])?;
    Ok(Script { code_hash: code_hash.hash()?, hash_type: hash_type.named("hash_type", HashType::NAMES)?, args: args.bytes()? })
}

pub(super) fn output(value: Value) -> Result<CellOutput, Error> {
    let ([capacity, lock], [type_]) = value.these_fields(["capacity", "lock"], ["type"])?;
    Ok(CellOutput { capacity: capacity.u64()?, lock: script(lock)?, type_: type_.map(script).transpose()? })
}

const TRANSACTION: [&str; 7] = ["version", "cell_deps", "header_deps", "inputs", "outputs", "outputs_data", "witnesses"];

fn transaction_fields(value: Value) -> Result<Transaction, Error> {
    let ([version, cell_deps, header_deps, inputs, outputs, outputs_data, witnesses], _) = value.these_fields(TRANSACTION, ["hash"])?;
    Ok(Transaction {
        version: version.u32()?,
        cell_deps: cell_deps.all(cell_dep)?,
        header_deps: header_deps.all(|hash| hash.hash())?,
        inputs: inputs.all(input)?,
        outputs: outputs.all(output)?,
        outputs_data: outputs_data.all(|data| data.bytes())?,
        witnesses: witnesses.all(|witness| witness.bytes())?,
    })
}

/// A value of a node's error message in one line, cut off where it is long.
fn in_a_line(value: Value) -> Option<String> {
    match value.kind() {
        Kind::Text => {
            let text: String = value.string().ok()?.chars().take(200).map(|c| if c.is_control() { ' ' } else { c }).collect();
            Some(text)
        }
        Kind::Number => Some(value.raw().chars().take(40).collect()),
        _ => None,
    }
}

/// Fails where this is the answer of an RPC call that failed, with the node's code and message.
pub(super) fn failure(value: Value) -> Result<(), Error> {
    let Some(error) = value.field("error").filter(|error| !error.is_null()) else { return Ok(()) };
    let mut why = "the node answered with an error".to_string();
    for part in [Some(error), error.field("code"), error.field("message")].into_iter().flatten() {
        if let Some(text) = in_a_line(part) {
            why += &format!(": {text}");
        }
    }
    Err(error.error(why))
}

/// The answer of an RPC call without what stands around it.
pub(super) fn unwrapped(value: Value) -> Result<Value, Error> {
    failure(value)?;
    if value.field("jsonrpc").is_none() {
        return Ok(value);
    }
    value.field("result").ok_or_else(|| value.error("the node answered without a \"result\""))
}

/// Why a transaction is null in the answer of `get_transaction`: with verbosity 1 it has only the status.
fn why_null(answer: Value) -> &'static str {
    let status = answer.field("tx_status").and_then(|status| status.field("status")).and_then(|status| status.text());
    match status {
        Some((text, _)) if text != "unknown" && text != "rejected" => {
            "the node was asked without the transaction; ask with verbosity 0 or 2"
        }
        _ => "the node knows no such transaction: null",
    }
}

/// A transaction: its fields, or what an RPC or ckb-cli puts around them, where it may also stand as hex.
pub(super) fn transaction(value: Value) -> Result<Transaction, Error> {
    let answer = unwrapped(value)?;
    let inner = answer.field("transaction");
    if let Some(name) = TRANSACTION.into_iter().chain(["result"]).find(|name| inner.is_some() && answer.field(name).is_some()) {
        return Err(answer.error(format!("beside \"transaction\" stands {}, and only one can be meant", quoted(name))));
    }
    let value = inner.unwrap_or(answer);
    match value.kind() {
        Kind::Text => Transaction::from_bytes(&value.bytes()?).ok_or_else(|| value.error("these bytes are no transaction")),
        Kind::Null => Err(value.error(why_null(answer))),
        _ if value.field("code_hash").is_some() => Err(value.error("this is a script, not a transaction")),
        _ => transaction_fields(value),
    }
}

/// The status of `get_live_cell`'s answer, of which there are three.
pub(super) fn status(value: Value) -> Result<bool, Error> {
    match &*value.string()? {
        "live" => Ok(true),
        "dead" | "unknown" => Ok(false),
        other => Err(value.error(format!("status is one of live, dead, unknown, not {}", quoted(other)))),
    }
}
