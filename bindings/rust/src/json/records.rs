//! The cells that added inputs spend, as a node tells them, and which of them belongs to which input.
use super::Error;
use super::node::{failure, out_point, output, status, unwrapped};
use super::text::{Kind, Value};
use crate::cells::{OutPoint, ResolvedCell};
use std::collections::HashMap;

/// How many records a text may have that are not those of an added input: an update that is accepted adds 64 inputs at most, and each record takes memory.
const MAX_RECORDS: usize = 4096;

/// The records of an update, from a text.
///
/// ```
/// use basinpantry::{Transaction, json};
///
/// let records = json::records("[null]", None, &Transaction::default()).unwrap();
/// assert_eq!((records.cells, records.unlisted), (vec![None], vec![]));
/// ```
#[derive(Clone, Debug, Default, PartialEq, Eq)]
#[non_exhaustive]
pub struct Records {
    /// In the order of the added inputs the cell that each spends; none where it is not live. Nothing is made up: there are as many as the text has.
    pub cells: Vec<Option<ResolvedCell>>,
    /// The added inputs, by their index among all inputs, whose cells an indexer's answer does not list. They stand in `cells` as not live.
    pub unlisted: Vec<usize>,
}

/// An input that the peer added: its index among all inputs, and what it spends.
pub(super) type Added = (usize, OutPoint);

/// A cell, with its out point where that is told; none where it is not live.
struct Record {
    out_point: Option<OutPoint>,
    cell: Option<ResolvedCell>,
}

const NOT_LIVE: Record = Record { out_point: None, cell: None };

/// The data of a cell: hex, or as `get_live_cell` has it, with its hash.
fn data(value: Value) -> Result<Vec<u8>, Error> {
    match value.kind() {
        Kind::Text => value.bytes(),
        Kind::Null => Err(value.error("the cell's data is missing: ask the node for the cell with its data")),
        _ => {
            let ([content], _) = value.these_fields(["content"], ["hash"])?;
            content.bytes()
        }
    }
}

fn cell(value: Value) -> Result<Record, Error> {
    let ([out, content], [point]) = value.these_fields(["output", "data"], ["out_point"])?;
    let cell = ResolvedCell { output: output(out)?, data: data(content)? };
    Ok(Record { out_point: point.map(out_point).transpose()?, cell: Some(cell) })
}

/// An entry of the records: null or a cell, or an answer of `get_live_cell`, which has to be one that succeeded.
fn record(value: Value) -> Result<Record, Error> {
    let value = unwrapped(value)?;
    if value.is_null() {
        return Ok(NOT_LIVE);
    }
    if value.field("status").is_none() {
        return cell(value);
    }
    let ([state], [found]) = value.these_fields(["status"], ["cell"])?;
    match (status(state)?, found) {
        (true, Some(found)) => cell(found),
        (true, None) => Err(value.error("the cell is live, and the field \"cell\" is missing")),
        (false, _) => Ok(NOT_LIVE),
    }
}

/// The id of an answer in a batch, by which the answers are put in order.
fn id(entry: Value) -> Result<Option<u64>, Error> {
    let Some(id) = entry.field("jsonrpc").and_then(|_| entry.field("id")).filter(|id| !id.is_null()) else { return Ok(None) };
    let text = match id.text() {
        Some((text, _)) => text,
        None => id.raw().into(),
    };
    match text.parse() {
        Ok(number) if text.bytes().all(|b| b.is_ascii_digit()) => Ok(Some(number)),
        _ => Err(id.error("an id is a whole number below 2^64 here, since the answers are put in order by it")),
    }
}

/// The entries of a list in the order of the inputs: as they stand or, where they are answers with ids, by these.
fn in_order<'a>(list: Value<'a>, added: usize) -> Result<Vec<Value<'a>>, Error> {
    let most = added.max(MAX_RECORDS);
    let mut entries = Vec::new();
    for entry in list.items()? {
        if entries.len() == most {
            return Err(entry.error(format!("there are over {most} records")));
        }
        failure(entry)?;
        entries.push((id(entry)?, entry));
    }
    let ids = entries.iter().filter(|(id, _)| id.is_some()).count();
    if ids == 0 {
        return Ok(entries.into_iter().map(|(_, entry)| entry).collect());
    }
    if let Some((_, entry)) = entries.iter().find(|(id, _)| id.is_none()) {
        return Err(entry.error("this record has no id, and others have one: which input it is about is not known"));
    }
    entries.sort_by_key(|(id, entry)| (*id, entry.at()));
    for pair in entries.windows(2) {
        let (Some(before), Some(after)) = (pair[0].0, pair[1].0) else { continue };
        if before == after {
            return Err(pair[1].1.error(format!("the id {after} stands a second time")));
        }
        // with an answer for each input the order alone says which is whose
        if before + 1 != after && entries.len() != added {
            return Err(pair[1].1.error(format!("the id {after} follows on {before}: an answer between them is missing")));
        }
    }
    Ok(entries.into_iter().map(|(_, entry)| entry).collect())
}

fn from_list(list: Value, added: &[Added]) -> Result<Records, Error> {
    let entries = in_order(list, added.len())?;
    let mut cells = Vec::with_capacity(entries.len());
    for (k, entry) in entries.into_iter().enumerate() {
        let record = record(entry)?;
        if let (Some(point), Some((i, spent))) = (record.out_point, added.get(k)) {
            if point != *spent {
                return Err(entry.error(format!("this record is of {point}, and added input {i} spends {spent}")));
            }
        }
        cells.push(record.cell);
    }
    Ok(Records { cells, unlisted: Vec::new() })
}

/// A cell as the indexer lists it.
fn listed(value: Value) -> Result<(OutPoint, ResolvedCell), Error> {
    let ([point, out], [content, ..]) = value.these_fields(["out_point", "output"], ["output_data", "block_number", "tx_index"])?;
    let Some(content) = content else {
        return Err(value.error("the cell's data is missing: ask the node for the cells with their data"));
    };
    Ok((out_point(point)?, ResolvedCell { output: output(out)?, data: content.bytes()? }))
}

/// The records from the cells that the indexer lists, in any order and among others, by their out points.
fn from_indexer(objects: Value, added: &[Added]) -> Result<Records, Error> {
    let mut found: HashMap<OutPoint, Option<ResolvedCell>> = added.iter().map(|(_, point)| (*point, None)).collect();
    for object in objects.items()? {
        let (point, cell) = listed(object)?;
        if let Some(place) = found.get_mut(&point) {
            if place.is_some() {
                return Err(object.error(format!("the cell {point} is listed a second time")));
            }
            *place = Some(cell);
        }
    }
    let cells: Vec<_> = added.iter().map(|(_, point)| found.get(point).cloned().flatten()).collect();
    let unlisted = added.iter().zip(&cells).filter(|(_, cell)| cell.is_none()).map(|((i, _), _)| *i).collect();
    Ok(Records { cells, unlisted })
}

pub(super) fn records(value: Value, added: &[Added]) -> Result<Records, Error> {
    if value.kind() == Kind::List {
        // what an indexer lists, without the answer around it
        let indexed = value.items()?.next().is_some_and(|first| first.field("output_data").is_some());
        return if indexed { from_indexer(value, added) } else { from_list(value, added) };
    }
    let answer = unwrapped(value)?;
    if let Some(objects) = answer.field("objects") {
        return from_indexer(objects, added);
    }
    if answer.field("status").is_some() {
        return Ok(Records { cells: vec![record(value)?.cell], unlisted: Vec::new() });
    }
    Err(answer.expected("a list of records, or an answer of get_live_cell or get_cells,"))
}
