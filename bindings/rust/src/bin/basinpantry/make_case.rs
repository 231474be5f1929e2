//! `case`: a case file from what a node prints.
use crate::case_parts::ours_of;
use crate::files::{Failure, Input, MAX_FILE_BYTES};
use crate::notes::{data_entries, repeats};
use crate::words::was;
use basinpantry::{CaseFile, CaseRecord, MAX_CASE_BYTES, Transaction, is_script, is_transaction, json};

/// The files that a case is made from.
pub struct Parts {
    pub ours: Option<Input>,
    pub peer: Input,
    pub lock: Input,
    pub udt: Option<Input>,
    pub source: Input,
    pub rate: u64,
    pub records: Option<Input>,
}

/// A part's bytes: as they are, or from JSON.
fn part(file: &Input, what: &str, is: fn(&[u8]) -> bool, read: fn(&[u8]) -> Result<Vec<u8>, json::Error>) -> Result<Vec<u8>, Failure> {
    if is(&file.bytes) {
        return Ok(file.bytes.clone());
    }
    read(file.json_or(format!("neither the bytes of {what} nor JSON"))?).map_err(|why| file.fail(why))
}

fn transaction(file: &Input) -> Result<Vec<u8>, Failure> {
    part(file, "a transaction", is_transaction, |text| Ok(json::transaction(text)?.to_bytes()))
}

fn script(file: &Input) -> Result<Vec<u8>, Failure> {
    part(file, "a script", is_script, |text| Ok(json::script(text)?.to_bytes()))
}

/// The case, and notes for the caller.
pub fn make(parts: &Parts) -> Result<(CaseFile, Vec<String>), Failure> {
    let mut case = CaseFile {
        ours: parts.ours.as_ref().map(transaction).transpose()?,
        peer: transaction(&parts.peer)?,
        lock: script(&parts.lock)?,
        udt: parts.udt.as_ref().map(script).transpose()?,
        source: script(&parts.source)?,
        rate: parts.rate,
        records: Vec::new(),
    };
    let mut notes = Vec::new();
    let (ours, peer) = (ours_of(&case).unwrap_or_default(), Transaction::from_bytes(&case.peer).unwrap_or_default());
    if let Some(file) = &parts.records {
        let records = json::records(&file.bytes, Some(&ours), &peer).map_err(|why| file.fail(why))?;
        for i in records.unlisted {
            let point = peer.inputs.get(i).map(|input| input.previous_output).unwrap_or_default();
            notes.push(format!("added input {i} spends {point}, which {} doesn't list: it is taken for not live", file.name));
        }
        case.records = records.cells.into_iter().map(|cell| cell.map(CaseRecord::from)).collect();
    }
    let added = peer.inputs.len().saturating_sub(ours.inputs.len());
    if case.records.len() != added {
        notes.push(format!("{} added, and {} given", was(added, "inputs"), was(case.records.len(), "records")));
    }
    notes.extend(repeats(&ours, &peer, true));
    notes.extend(data_entries(&peer));
    Ok((case, notes))
}

/// The case file's bytes, and notes for the caller.
pub fn make_file(parts: &Parts) -> Result<(Vec<u8>, Vec<String>), Failure> {
    let (case, mut notes) = make(parts)?;
    let Some(bytes) = case.to_bytes() else {
        return Err(Failure("a part has 2^28 bytes or more, which no case file can hold".to_string()));
    };
    if bytes.len() > MAX_CASE_BYTES {
        notes.push(format!(
            "the case file has {} bytes, and check_update and check --line answer 3 to more than {MAX_CASE_BYTES}",
            bytes.len()
        ));
    }
    if bytes.len() as u64 > MAX_FILE_BYTES {
        notes.push(format!("to be read it wants --max-bytes {}", bytes.len()));
    }
    Ok((bytes, notes))
}
