//! The parts of a case as they are shown, and what it comes to.
use basinpantry::{CaseFile, CaseRecord, CellOutput, ResolvedCell, Script, Total, Transaction};

/// Our transaction, or the one of version 0 and empty lists where there is none; nothing where it is unreadable.
pub fn ours_of(case: &CaseFile) -> Option<Transaction> {
    match &case.ours {
        None => Some(Transaction::default()),
        Some(ours) => Transaction::from_bytes(ours),
    }
}

/// The outputs that count as added: from our count on, never output 0.
pub fn added_outputs(ours: &Transaction, peer: &Transaction) -> std::ops::Range<usize> {
    let first = ours.outputs.len().max(1);
    first..peer.outputs.len().max(first)
}

/// Whether an output has the type that is expected, or none where none is.
pub fn is_of(output: &CellOutput, case: &CaseFile) -> bool {
    output.type_.as_ref().map(Script::to_bytes) == case.udt
}

/// Whether an input is shared (ours has the same), changed or added.
pub fn input_part(ours: &Transaction, peer: &Transaction, i: usize) -> &'static str {
    match ours.inputs.get(i) {
        Some(same) if Some(same) == peer.inputs.get(i) => "shared",
        Some(_) => "changed",
        None => "added",
    }
}

/// The same of an output and its data; output 0 is the funding cell.
pub fn output_part(ours: &Transaction, peer: &Transaction, i: usize) -> &'static str {
    match ours.outputs.get(i) {
        _ if i == 0 => "funding",
        Some(same)
            if Some(same) == peer.outputs.get(i) && ours.outputs_data.get(i).is_none_or(|data| Some(data) == peer.outputs_data.get(i)) =>
        {
            "shared"
        }
        Some(_) => "changed",
        None => "added",
    }
}

/// The cell that an added input spends, as the case has it.
pub enum Record {
    Live(ResolvedCell),
    NotLive,
    Unreadable,
    Missing,
}

/// A record of a case.
pub fn record(case: &CaseFile, k: usize) -> Record {
    match case.records.get(k) {
        None => Record::Missing,
        Some(None) => Record::NotLive,
        Some(Some(record)) => record.cell().map_or(Record::Unreadable, Record::Live),
    }
}

/// A whole number by what is above and what is below zero.
pub struct Difference {
    plus: Total,
    minus: Total,
}

impl Difference {
    /// As written by `write`, with the sign in front.
    pub fn signed(&self, write: impl Fn(Total) -> String) -> String {
        match self.plus.checked_sub(self.minus) {
            Some(left) => write(left),
            None => format!("-{}", write(self.minus.checked_sub(self.plus).unwrap_or_default())),
        }
    }
}

/// One account: what came in, output 0 before and after, and the added outputs.
pub struct Account {
    put_in: Total,
    before: u128,
    after: u128,
    back: Total,
}

impl Account {
    pub fn lines(&self) -> [Difference; 4] {
        let (before, after) = (Total::from(self.before), Total::from(self.after));
        [
            Difference { plus: self.put_in, minus: Total::ZERO },
            Difference { plus: after, minus: before },
            Difference { plus: self.back, minus: Total::ZERO },
            Difference { plus: self.put_in.saturating_add(before), minus: after.saturating_add(self.back) },
        ]
    }
}

/// What the peer brings, in shannons and, where a token is expected, in tokens, and the fee that an opening has to pay.
pub struct Figures {
    pub capacity: Account,
    pub token: Option<Account>,
    pub required_fee: Option<u64>,
}

impl Figures {
    pub fn of(case: &CaseFile, ours: &Transaction, peer: &Transaction) -> Figures {
        let live = || case.records.iter().flatten().filter_map(CaseRecord::cell);
        let added = added_outputs(ours, peer);
        let first = |tx: &Transaction| tx.outputs.first().map_or(0, |output| u128::from(output.capacity));
        let capacity = Account {
            put_in: live().map(|cell| u128::from(cell.output.capacity)).sum(),
            before: first(ours),
            after: first(peer),
            back: peer.outputs[added.clone()].iter().map(|output| u128::from(output.capacity)).sum(),
        };
        let amount = |tx: &Transaction| if tx.outputs.is_empty() { 0 } else { tx.amount(0).unwrap_or(0) };
        // a missing or short amount counts 0
        let token = case.udt.is_some().then(|| Account {
            put_in: live().filter(|cell| is_of(&cell.output, case)).map(|cell| cell.amount().unwrap_or(0)).sum(),
            before: amount(ours),
            after: amount(peer),
            back: added.filter(|i| is_of(&peer.outputs[*i], case)).map(|i| peer.amount(i).unwrap_or(0)).sum(),
        });
        let required_fee = (ours.inputs.is_empty() && ours.outputs.is_empty()).then(|| {
            let size = u64::try_from(case.peer.len() + 4).expect("a length has 64 bits at most");
            case.rate.saturating_mul(size) / 1000
        });
        Figures { capacity, token, required_fee }
    }
}
