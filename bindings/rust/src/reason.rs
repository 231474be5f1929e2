//! Which check refuses an update. The verdict is the proved library's and only that; since one number stands for many checks, this goes over them in
//! their order (crates/rules/specs/Judge.antt) and puts the first that fails into words. It is told only where its number is the verdict's.
use crate::cells::{CellOutput, ResolvedCell, Script};
use crate::molecule;
use crate::refusal::Refusal;
use crate::total::Total;
use crate::transaction::{Transaction, is_script};
use crate::update::PeerUpdate;

/// The limits, by their names in the original, which has none on header deps.
const MAX_PEER_FUNDING_TX_SERIALIZED_SIZE: usize = 133_120;
const MAX_PEER_ADDED_FUNDING_INPUTS: usize = 64;
const MAX_PEER_ADDED_FUNDING_OUTPUTS: usize = 3;
const MAX_PEER_ADDED_CELL_DEPS: usize = 8;
const MAX_PEER_ADDED_HEADER_DEPS: usize = 2;

/// Which of the checks under its number refused an update, in words for people; none where the number says it all (1, 2, 6, 8), and where these checks, which are
/// plain Rust and not proved, come to another number than the library.
///
/// The first four are those of [`update_for_peer`](crate::update_for_peer), which gave the refusal. The words may change from one version to the next: programs go
/// by the number. The time and memory that it takes grow with the lent bytes, and not faster.
///
/// ```
/// use basinpantry::{PeerUpdate, Script, Transaction, reason, update_for_peer, write_records};
///
/// let script = Script::default().to_bytes();
/// let peer = Transaction { version: 1, ..Transaction::default() }.to_bytes();
/// let update = PeerUpdate { peer: &peer, records: &write_records(&[]), source: &script, rate: 1000 };
/// let why = update_for_peer(None, &script, None, &update).unwrap_err();
/// assert_eq!(why.number(), 5);
/// assert_eq!(reason(None, &script, None, &update, &why).unwrap(), "its version is 1, and ours is 0");
/// ```
pub fn reason(ours: Option<&[u8]>, lock: &[u8], udt: Option<&[u8]>, update: &PeerUpdate, why: &Refusal) -> Option<String> {
    let Err((number, text)) = judge(ours, lock, udt, update) else { return None };
    (number == why.number() && !matches!(number, 1 | 2 | 6 | 8)).then_some(text)
}

/// A check's number, and what is to be said where it fails.
type Reason = (u32, String);

/// Nothing where the check passes, else a reason.
fn check(number: u32, passes: bool, why: impl FnOnce() -> String) -> Result<(), Reason> {
    if passes { Ok(()) } else { Err((number, why())) }
}

/// So many of what the plural names.
fn count(n: usize, plural: &str) -> String {
    match plural {
        _ if n != 1 => format!("{n} {plural}"),
        "data entries" => "1 data entry".to_string(),
        _ => format!("1 {}", plural.trim_end_matches('s')),
    }
}

/// The same with its verb.
fn was(n: usize, plural: &str) -> String {
    format!("{} {}", count(n, plural), if n == 1 { "was" } else { "were" })
}

/// What is judged, with the transactions read.
struct Case<'a> {
    ours: Transaction,
    peer: Transaction,
    lock: &'a [u8],
    udt: Option<&'a [u8]>,
    update: &'a PeerUpdate<'a>,
}

/// The output and data of a record; nothing where it is unreadable.
fn parts_of(record: &[u8]) -> Option<(CellOutput, &[u8])> {
    let [output, data] = molecule::parts(record)?.try_into().ok()?;
    Some((CellOutput::from_bytes(output)?, molecule::content(data)?))
}

/// The outputs that count as added: from our count on, never output 0.
fn added_outputs(ours: &Transaction, peer: &Transaction) -> std::ops::Range<usize> {
    let first = ours.outputs.len().max(1);
    first..peer.outputs.len().max(first)
}

fn judge(ours: Option<&[u8]>, lock: &[u8], udt: Option<&[u8]>, update: &PeerUpdate) -> Result<(), Reason> {
    let ours = match ours {
        None => Transaction::default(),
        Some(ours) => Transaction::from_bytes(ours).ok_or((1, String::new()))?,
    };
    let peer = Transaction::from_bytes(update.peer).ok_or((2, String::new()))?;
    check(3, is_script(lock), || "the expected funding lock is no script".to_string())?;
    check(3, udt.is_none_or(is_script), || "the expected token type is no script".to_string())?;
    check(3, is_script(update.source), || "our source lock is no script".to_string())?;
    let case = Case { ours, peer, lock, udt, update };
    limits(&case)?;
    comparison(&case)?;
    let cells = records(&case)?;
    contribution(&case, &cells)
}

fn limits(case: &Case) -> Result<(), Reason> {
    let Case { ours, peer, .. } = case;
    let size = case.update.peer.len() + 4;
    check(4, size <= MAX_PEER_FUNDING_TX_SERIALIZED_SIZE, || format!("its size is {size}, over 133,120"))?;
    for (what, ours, peer, most) in [
        ("inputs", ours.inputs.len(), peer.inputs.len(), MAX_PEER_ADDED_FUNDING_INPUTS),
        ("outputs", ours.outputs.len(), peer.outputs.len(), MAX_PEER_ADDED_FUNDING_OUTPUTS),
        ("cell deps", ours.cell_deps.len(), peer.cell_deps.len(), MAX_PEER_ADDED_CELL_DEPS),
        ("header deps", ours.header_deps.len(), peer.header_deps.len(), MAX_PEER_ADDED_HEADER_DEPS),
    ] {
        let added = peer.saturating_sub(ours);
        check(4, added <= most, || format!("it adds {}, and {most} are allowed", count(added, what)))?;
    }
    Ok(())
}

/// The first place that both have and that differs.
fn differs<T: PartialEq>(ours: &[T], peer: &[T], from: usize) -> Option<usize> {
    (from..ours.len().min(peer.len())).find(|i| ours[*i] != peer[*i])
}

fn comparison(case: &Case) -> Result<(), Reason> {
    let Case { ours, peer, .. } = case;
    let fewer =
        |what: &str, ours: usize, peer: usize| check(5, ours <= peer, || format!("it has {}, and ours has {ours}", count(peer, what)));
    let same = |what: &str, place: Option<usize>| match place {
        Some(i) => Err((5, format!("{what} {i} is not ours"))),
        None => Ok(()),
    };
    check(5, ours.version == peer.version, || format!("its version is {}, and ours is {}", peer.version, ours.version))?;
    fewer("cell deps", ours.cell_deps.len(), peer.cell_deps.len())?;
    let theirs: std::collections::HashSet<_> = peer.cell_deps.iter().collect();
    if let Some(i) = ours.cell_deps.iter().position(|dep| !theirs.contains(dep)) {
        return Err((5, format!("our cell dep {i} is missing")));
    }
    fewer("header deps", ours.header_deps.len(), peer.header_deps.len())?;
    same("header dep", differs(&ours.header_deps, &peer.header_deps, 0))?;
    fewer("inputs", ours.inputs.len(), peer.inputs.len())?;
    same("input", differs(&ours.inputs, &peer.inputs, 0))?;
    fewer("outputs", ours.outputs.len(), peer.outputs.len())?;
    if let Some(output) = peer.outputs.first() {
        check(5, output.lock.to_bytes() == case.lock, || "the lock of output 0 is not the expected funding lock".to_string())?;
        check(5, is_of(output, case), || match (case.udt, &output.type_) {
            (None, _) => "output 0 has a type, and none is expected".to_string(),
            (Some(_), None) => "output 0 has no type, and the token's is expected".to_string(),
            (Some(_), Some(_)) => "the type of output 0 is not the expected token's".to_string(),
        })?;
        let data = peer.outputs_data.first().map_or(0, Vec::len);
        check(5, case.udt.is_some() || data == 0, || format!("output 0 is untyped, and has {} of data", count(data, "bytes")))?;
    }
    same("output", differs(&ours.outputs, &peer.outputs, 1))?;
    fewer("data entries", ours.outputs_data.len(), peer.outputs_data.len())?;
    same("the data of output", differs(&ours.outputs_data, &peer.outputs_data, 1))
}

/// Whether an output has the type that is expected, or none where none is.
fn is_of(output: &CellOutput, case: &Case) -> bool {
    output.type_.as_ref().map(Script::to_bytes).as_deref() == case.udt
}

fn records(case: &Case) -> Result<Vec<ResolvedCell>, Reason> {
    let records = molecule::each_part(case.update.records).ok_or((3, "the records are no list".to_string()))?;
    // none is kept yet: there may be many more than inputs
    for (i, record) in records.clone().enumerate() {
        let readable = record.is_some_and(|record| record.is_empty() || parts_of(record).is_some());
        check(3, readable, || format!("record {i} is no output with data"))?;
    }
    let shared = case.ours.inputs.len();
    let added = case.peer.inputs.len().saturating_sub(shared);
    check(3, records.len() == added, || format!("{} added, and {} lent", was(added, "inputs"), was(records.len(), "records")))?;
    let mut live = Vec::new();
    for (i, record) in records.enumerate() {
        let i = shared + i;
        let (output, data) = record.and_then(parts_of).ok_or((5, format!("the cell of input {i} is not live")))?;
        check(6, output.lock.to_bytes() != case.update.source, String::new)?;
        live.push(ResolvedCell { output, data: data.to_vec() });
    }
    Ok(live)
}

fn contribution(case: &Case, cells: &[ResolvedCell]) -> Result<(), Reason> {
    let Case { ours, peer, .. } = case;
    let typed = case.udt.is_some();
    let Some(first) = peer.outputs.first() else { return Err((5, "output 0 is missing".to_string())) };
    check(5, !peer.outputs_data.is_empty(), || "the data entry of output 0 is missing".to_string())?;
    let before = ours.outputs.first().map_or(0, |output| output.capacity);
    let after = first.capacity;
    check(5, before <= after, || format!("the capacity of output 0 falls from {before} to {after} shannons"))?;
    let short = |what: &str, amount: Option<u128>| amount.ok_or((5, format!("{what} has under 16 bytes of data, so no token amount")));
    let mut growth = 0;
    if typed {
        let before = if ours.outputs.is_empty() { 0 } else { short("our output 0", ours.amount(0))? };
        let after = short("output 0", peer.amount(0))?;
        check(5, before <= after, || format!("the tokens of output 0 fall from {before} to {after}"))?;
        growth = after - before;
    }
    let gained: Total = cells.iter().map(|cell| u128::from(cell.output.capacity)).sum();
    let added = added_outputs(ours, peer);
    let taken: Total = peer.outputs[added.clone()].iter().map(|output| u128::from(output.capacity)).sum();
    let needed = Total::from(u128::from(after - before)).saturating_add(taken);
    let left = gained.checked_sub(needed).ok_or_else(|| {
        let short = needed.checked_sub(gained).unwrap_or_default();
        (5, format!("it puts in {gained} shannons, {short} below the growth of output 0 and the outputs that it added"))
    })?;
    if ours.inputs.is_empty() && ours.outputs.is_empty() {
        let size = u64::try_from(case.update.peer.len() + 4).expect("a length has 64 bits at most");
        let required = case.update.rate.saturating_mul(size) / 1000;
        check(8, left >= Total::from(u128::from(required)), String::new)?;
    }
    if typed {
        let mut put_in: u128 = 0;
        for (i, cell) in cells.iter().enumerate().filter(|(_, cell)| is_of(&cell.output, case)) {
            let amount = short(&format!("the cell of input {}", ours.inputs.len() + i), cell.amount())?;
            put_in = put_in.checked_add(amount).ok_or((7, "the tokens of the added inputs come to 2^128 or more".to_string()))?;
        }
        let mut back: u128 = 0;
        for i in added.filter(|i| is_of(&peer.outputs[*i], case)) {
            let amount = short(&format!("output {i}"), peer.amount(i))?;
            back = back.checked_add(amount).ok_or((7, "the tokens of the added outputs come to 2^128 or more".to_string()))?;
        }
        let needed =
            growth.checked_add(back).ok_or((7, "the token growth of output 0 and the added outputs come to 2^128 or more".to_string()))?;
        check(5, needed <= put_in, || {
            format!("it puts in {put_in} tokens, {} below the growth of output 0 and the outputs that it added", needed - put_in)
        })?;
    }
    Ok(())
}

#[cfg(test)]
#[path = "reason_tests.rs"]
mod tests;
