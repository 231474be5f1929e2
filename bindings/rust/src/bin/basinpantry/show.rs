//! `show`: a transaction or a case as a table.
use crate::case_parts::{Figures, Record, input_part, is_of, ours_of, output_part, record};
use crate::files::{Failure, Input};
use crate::notes::{data_entries, repeats};
use crate::{table, words};
use basinpantry::{CaseFile, CellOutput, Script, Total, Transaction, is_script, json};

/// What is to be shown.
pub enum Shown {
    /// A transaction and how many bytes it has.
    Transaction(Transaction, usize),
    Case(CaseFile),
}

impl Shown {
    /// What a file holds: a transaction in Molecule or JSON, or a case.
    pub fn of(file: &Input) -> Result<Shown, Failure> {
        if let Some(tx) = Transaction::from_bytes(&file.bytes) {
            return Ok(Shown::Transaction(tx, file.bytes.len()));
        }
        let not_a_case = match CaseFile::from_bytes(&file.bytes) {
            Ok(case) => return Ok(Shown::Case(case)),
            Err(why) => why,
        };
        if is_script(&file.bytes) {
            return Err(file.fail("this is a script, not a transaction"));
        }
        let text = file.json_or(format!("neither a transaction nor a case file; for a case file: {not_a_case}"))?;
        let tx = json::transaction(text).map_err(|why| file.fail(why))?;
        let size = tx.to_bytes().len();
        Ok(Shown::Transaction(tx, size))
    }

    /// As tables, with whole hashes where they are asked for.
    pub fn tables(&self, full: bool) -> String {
        match self {
            Shown::Transaction(tx, size) => transaction(tx, *size, full),
            Shown::Case(case) => show_case(case, full),
        }
    }
}

fn none_if_empty(text: String) -> String {
    if text.is_empty() { "-".to_string() } else { text }
}

/// The tokens of data, where the cell is of a type.
fn tokens(output: &CellOutput, amount: Option<u128>) -> String {
    match (&output.type_, amount) {
        (None, _) => "-".to_string(),
        (Some(_), Some(amount)) => amount.to_string(),
        (Some(_), None) => "none".to_string(),
    }
}

fn capacity(shannons: u64) -> String {
    words::ckb(Total::from(u128::from(shannons)))
}

fn transaction(tx: &Transaction, bytes: usize, full: bool) -> String {
    let mut out = format!("a transaction of {bytes} bytes, version {}\n", tx.version);
    out += &format!("\ninputs: {}\n", tx.inputs.len());
    let rows = tx
        .inputs
        .iter()
        .enumerate()
        .map(|(i, input)| vec![i.to_string(), words::out_point(&input.previous_output, full), format!("{:#x}", input.since)]);
    list(&mut out, &[">no", "out point", ">since"], rows);
    out += &format!("\noutputs: {}\n", tx.outputs.len());
    let rows = tx.outputs.iter().enumerate().map(|(i, output)| {
        vec![
            i.to_string(),
            capacity(output.capacity),
            tokens(output, tx.amount(i)),
            data_bytes(tx, i),
            words::script(&output.lock, full),
            none_if_empty(output.type_.as_ref().map(|type_| words::script(type_, full)).unwrap_or_default()),
        ]
    });
    list(&mut out, &[">no", ">capacity (CKB)", ">tokens", ">data bytes", "lock", "type"], rows);
    out += &others(tx, full);
    out
}

fn data_bytes(tx: &Transaction, i: usize) -> String {
    tx.outputs_data.get(i).map_or("no entry".to_string(), |data| data.len().to_string())
}

/// A table, unless it would be empty.
fn list(out: &mut String, head: &[&str], rows: impl Iterator<Item = Vec<String>> + Clone) {
    if rows.clone().next().is_some() {
        table::write(out, head, rows);
    }
}

/// Cell deps, header deps and witnesses, and data entries beyond the outputs.
fn others(tx: &Transaction, full: bool) -> String {
    let mut out = format!("\ncell deps: {}\n", tx.cell_deps.len());
    let rows = tx
        .cell_deps
        .iter()
        .enumerate()
        .map(|(i, dep)| vec![i.to_string(), words::out_point(&dep.out_point, full), dep.dep_type.to_string()]);
    list(&mut out, &[">no", "out point", "dep type"], rows);
    out += &format!("\nheader deps: {}\n", tx.header_deps.len());
    let rows = tx.header_deps.iter().enumerate().map(|(i, hash)| vec![i.to_string(), words::hex(hash.as_ref(), full)]);
    list(&mut out, &[">no", "block hash"], rows);
    out += &format!("\nwitnesses: {}\n", tx.witnesses.len());
    let rows =
        tx.witnesses.iter().enumerate().map(|(i, witness)| vec![i.to_string(), witness.len().to_string(), words::hex(witness, full)]);
    list(&mut out, &[">no", ">bytes", "witness"], rows);
    if tx.outputs_data.len() > tx.outputs.len() {
        out += &format!("\ndata entries beyond the outputs: {}\n", tx.outputs_data.len() - tx.outputs.len());
    }
    out
}

/// A case: its parts, what it comes to, and the verdict.
fn show_case(case: &CaseFile, full: bool) -> String {
    let mut out = String::new();
    let ours = ours_of(case);
    out += &match (&case.ours, &ours) {
        (None, _) => "ours: none\n".to_string(),
        (Some(bytes), Some(ours)) => format!("ours: {}\n", counts(bytes.len(), ours)),
        (Some(bytes), None) => format!("ours: {} bytes, which are no transaction\n", bytes.len()),
    };
    let peer = Transaction::from_bytes(&case.peer);
    out += &match &peer {
        Some(peer) => format!("the peer's: {}\n", counts(case.peer.len(), peer)),
        None => format!("the peer's: {} bytes, which are no transaction\n", case.peer.len()),
    };
    out += &format!("funding lock: {}\n", script(&case.lock, full));
    out += &format!("token type: {}\n", case.udt.as_ref().map_or("none".to_string(), |udt| script(udt, full)));
    out += &format!("our source lock: {}\n", script(&case.source, full));
    out += &format!("fee rate: {} shannons per 1000 bytes\n", case.rate);
    if let (Some(ours), Some(peer)) = (&ours, &peer) {
        inputs(&mut out, case, ours, peer, full);
        outputs(&mut out, case, ours, peer, full);
        figures(&mut out, case, ours, peer);
    }
    out += &format!("\n{}\n", words::verdict(case, &case.judge()));
    out
}

/// How long a transaction and its lists are.
fn counts(bytes: usize, tx: &Transaction) -> String {
    let lists = [
        (bytes, "bytes"),
        (tx.inputs.len(), "inputs"),
        (tx.outputs.len(), "outputs"),
        (tx.cell_deps.len(), "cell deps"),
        (tx.header_deps.len(), "header deps"),
        (tx.witnesses.len(), "witnesses"),
    ];
    let counts: Vec<String> = lists.iter().map(|(n, plural)| words::count(*n, plural)).collect();
    format!("version {}, {}", tx.version, counts.join(", "))
}

fn script(bytes: &[u8], full: bool) -> String {
    Script::from_bytes(bytes).map_or(format!("{} bytes, which are no script", bytes.len()), |script| words::script(&script, full))
}

/// A lock by its role in the case, else by its parts.
fn lock_name(case: &CaseFile, lock: &Script, full: bool) -> String {
    let bytes = lock.to_bytes();
    if bytes == case.lock {
        "the funding lock".to_string()
    } else if bytes == case.source {
        "our source lock".to_string()
    } else {
        words::script(lock, full)
    }
}

fn type_name(case: &CaseFile, output: &CellOutput, full: bool) -> String {
    match &output.type_ {
        None => "-".to_string(),
        Some(_) if is_of(output, case) => "the token".to_string(),
        Some(type_) => words::script(type_, full),
    }
}

fn inputs(out: &mut String, case: &CaseFile, ours: &Transaction, peer: &Transaction, full: bool) {
    let shared = ours.inputs.len();
    let added = peer.inputs.len().saturating_sub(shared);
    *out += &format!("\ninputs: {}, added {added}\n", peer.inputs.len());
    let rows = peer.inputs.iter().enumerate().map(|(i, input)| {
        let part = input_part(ours, peer, i);
        let mut row = vec![i.to_string(), part.to_string(), words::out_point(&input.previous_output, full), format!("{:#x}", input.since)];
        row.extend(match i.checked_sub(shared).map(|k| record(case, k)) {
            // what a shared input spends is not in the case
            None => ["", "", "", ""].map(str::to_string),
            Some(Record::Missing) => ["no record", "", "", ""].map(str::to_string),
            Some(Record::NotLive) => ["not live", "", "", ""].map(str::to_string),
            Some(Record::Unreadable) => ["unreadable", "", "", ""].map(str::to_string),
            Some(Record::Live(cell)) => [
                capacity(cell.output.capacity),
                tokens(&cell.output, cell.amount()),
                lock_name(case, &cell.output.lock, full),
                type_name(case, &cell.output, full),
            ],
        });
        row
    });
    list(out, &[">no", "part", "out point", ">since", ">capacity (CKB)", ">tokens", "lock", "type"], rows);
    if case.records.len() != added {
        *out += &format!("  {} lent, and {} added\n", words::was(case.records.len(), "records"), words::was(added, "inputs"));
    }
    for note in repeats(ours, peer, full) {
        *out += &format!("  note: {note}\n");
    }
}

fn outputs(out: &mut String, case: &CaseFile, ours: &Transaction, peer: &Transaction, full: bool) {
    // as the limit counts them: the funding cell of an opening is one of them
    let added = peer.outputs.len().saturating_sub(ours.outputs.len());
    let funding = if ours.outputs.is_empty() && added > 0 { " (output 0 is the funding cell)" } else { "" };
    *out += &format!("\noutputs: {}, added {added}{funding}\n", peer.outputs.len());
    let rows = peer.outputs.iter().enumerate().map(|(i, output)| {
        let part = output_part(ours, peer, i);
        vec![
            i.to_string(),
            part.to_string(),
            capacity(output.capacity),
            tokens(output, peer.amount(i)),
            data_bytes(peer, i),
            lock_name(case, &output.lock, full),
            type_name(case, output, full),
        ]
    });
    list(out, &[">no", "part", ">capacity (CKB)", ">tokens", ">data bytes", "lock", "type"], rows);
    if let Some(note) = data_entries(peer) {
        *out += &format!("  note: {note}\n");
    }
}

fn figures(out: &mut String, case: &CaseFile, ours: &Transaction, peer: &Transaction) {
    let Figures { capacity, token, required_fee } = Figures::of(case, ours, peer);
    let (capacity, token) = (capacity.lines(), token.map(|token| token.lines()));
    let names = ["put in by added inputs", "growth of output 0", "taken back by added outputs", "surplus"];
    let rows = names.iter().zip(&capacity).enumerate().map(|(i, (name, shannons))| {
        let mut row = vec![name.to_string(), shannons.signed(|x| x.to_string()), shannons.signed(words::ckb)];
        row.extend(token.as_ref().map(|token| token[i].signed(|x| x.to_string())));
        row
    });
    out.push('\n');
    let head = ["what the peer brings", ">shannons", ">CKB", ">tokens"];
    list(out, &head[..if token.is_some() { 4 } else { 3 }], rows);
    if let Some(fee) = required_fee {
        *out += &format!("  an opening: the surplus pays the fee, and {fee} shannons are required\n");
    }
}
