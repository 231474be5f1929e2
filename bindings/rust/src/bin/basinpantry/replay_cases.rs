//! `replay`: a list of updates, each in a case file.
use crate::files::{Failure, Input};
use crate::words;
use basinpantry::{Accepted, CaseFile, Refusal, Total, replay};

/// A list of updates after it was judged.
pub struct Replayed {
    /// Each with what was in force when it was judged, whatever its file has.
    pub updates: Vec<(CaseFile, Result<Accepted, Refusal>)>,
    pub capacity: Total,
    pub token: Total,
    /// Which update's transaction is in force at the end; none where it is the one at the start.
    pub in_force: Option<usize>,
    started: bool,
}

impl Replayed {
    pub fn of(files: &[Input]) -> Result<Replayed, Failure> {
        let mut cases: Vec<CaseFile> = Vec::new();
        for file in files {
            let case = file.case()?;
            if let Some(first) = cases.first() {
                if case.lock != first.lock || case.udt != first.udt {
                    let what = if case.lock != first.lock { "funding lock" } else { "token type" };
                    return Err(file.fail(format!("its expected {what} is not that of {}", files[0].name)));
                }
            }
            cases.push(case);
        }
        let Some(first) = cases.first() else { return Err(Failure("replay: no case file is named".to_string())) };
        let records: Vec<Vec<u8>> = cases.iter().map(CaseFile::records_bytes).collect();
        let updates: Vec<_> = cases.iter().zip(&records).map(|(case, records)| case.update(records)).collect();
        let replayed = match replay(first.ours.as_deref(), &first.lock, first.udt.as_deref(), &updates) {
            Ok(replayed) => replayed,
            Err(why) => return Err(Failure(format!("the list of updates is refused ({}): {why}", why.number()))),
        };
        let started = first.ours.is_some();
        let mut in_force = first.ours.clone();
        let mut updates = Vec::with_capacity(cases.len());
        for (mut case, answer) in cases.into_iter().zip(replayed.answers) {
            let next = if answer.is_ok() { Some(case.peer.clone()) } else { in_force.clone() };
            case.ours = std::mem::replace(&mut in_force, next);
            updates.push((case, answer));
        }
        Ok(Replayed { updates, capacity: replayed.capacity, token: replayed.token, in_force: replayed.in_force, started })
    }

    /// How many updates were accepted.
    pub fn accepted(&self) -> usize {
        self.updates.iter().filter(|(_, answer)| answer.is_ok()).count()
    }

    pub fn all_accepted(&self) -> bool {
        self.accepted() == self.updates.len()
    }

    /// For people.
    pub fn sentences(&self, files: &[Input]) -> String {
        let mut out = String::new();
        for (file, (case, answer)) in files.iter().zip(&self.updates) {
            out += &format!("{}: {}\n", file.name, words::verdict(case, answer));
        }
        let typed = self.updates.first().is_some_and(|(case, _)| case.udt.is_some());
        out += &format!("\naccepted: {} of {}\n", self.accepted(), self.updates.len());
        out += &format!("sum of their surpluses: {}", words::surplus(self.capacity, self.token, typed));
        out += &match self.in_force.and_then(|k| files.get(k)) {
            Some(file) => format!("\nin force: the peer's transaction of {}\n", file.name),
            None if !self.started => "\nin force: none, as at the start\n".to_string(),
            None => "\nin force: the transaction at the start\n".to_string(),
        };
        out
    }
}
