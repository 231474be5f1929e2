//! What was compared, and how it came out.
use std::collections::BTreeMap;

/// Where the answer that is expected comes from.
#[derive(Clone, Copy, Debug, PartialEq)]
pub enum Source {
    /// The original said so.
    Original,
    /// The original accepted the update, or some of a list of updates: the verdict is its own. It returns no surplus: the one that is expected is computed
    /// beside it, by the rules of this library, over the original's readers of capacities and tokens.
    Acceptance,
    /// The stand-ins' strict reader: the original can't be asked, since it is handed values that were read.
    Reader,
    /// The original says something else, or panics, and a rule of docs/DIFFERENCES.md says what is expected instead.
    Intended(&'static str),
    /// A request changed the rules since the original: the call is left out of the comparison with it, and what is expected is the request's answer.
    Requested(&'static str),
    /// Nobody can be asked what the answer is: only that a refusal changes nothing is looked at.
    Unknown(&'static str),
}

/// Of one call.
#[derive(Debug)]
pub struct Outcome {
    /// The library's answer.
    pub number: u32,
    pub source: Source,
    /// What differs, if anything.
    pub wrong: Option<String>,
}

#[derive(Default)]
pub struct Tally {
    pub calls: u64,
    pub wrong: u64,
    original: u64,
    acceptance: u64,
    reader: u64,
    numbers: BTreeMap<u32, u64>,
    intended: BTreeMap<&'static str, u64>,
    requested: BTreeMap<&'static str, u64>,
    unknown: BTreeMap<&'static str, u64>,
}

impl Tally {
    pub fn add(&mut self, o: &Outcome) {
        self.calls += 1;
        if o.wrong.is_some() {
            self.wrong += 1;
            return;
        }
        *self.numbers.entry(o.number).or_default() += 1;
        match o.source {
            Source::Original => self.original += 1,
            Source::Acceptance => self.acceptance += 1,
            Source::Reader => self.reader += 1,
            Source::Intended(name) => *self.intended.entry(name).or_default() += 1,
            Source::Requested(name) => *self.requested.entry(name).or_default() += 1,
            Source::Unknown(name) => *self.unknown.entry(name).or_default() += 1,
        }
    }
    /// The other's calls too.
    pub fn join(&mut self, other: &Tally) {
        self.calls += other.calls;
        self.wrong += other.wrong;
        self.original += other.original;
        self.acceptance += other.acceptance;
        self.reader += other.reader;
        other.numbers.iter().for_each(|(k, n)| *self.numbers.entry(*k).or_default() += n);
        other.intended.iter().for_each(|(k, n)| *self.intended.entry(k).or_default() += n);
        other.requested.iter().for_each(|(k, n)| *self.requested.entry(k).or_default() += n);
        other.unknown.iter().for_each(|(k, n)| *self.unknown.entry(k).or_default() += n);
    }
    pub fn head() {
        let of = ["calls", "agree", "original", "accepted", "reader", "intended", "requested", "unknown", "disagree"];
        print!("{:<17}", "kind");
        of.iter().for_each(|name| print!(" {name:>9}"));
        println!();
    }
    pub fn line(&self, kind: &str) {
        let sum = |counts: &BTreeMap<&str, u64>| counts.values().sum();
        let (intended, requested, unknown) = (sum(&self.intended), sum(&self.requested), sum(&self.unknown));
        let agree = self.original + self.acceptance + self.reader;
        let counts = [self.calls, agree, self.original, self.acceptance, self.reader, intended, requested, unknown, self.wrong];
        print!("{kind:<17}");
        counts.iter().for_each(|n: &u64| print!(" {n:>9}"));
        println!();
    }
    pub fn numbers(&self, kind: &str) {
        let listed: Vec<String> = self.numbers.iter().map(|(k, n)| format!("{k}: {n}")).collect();
        println!("{kind:<17} {}", listed.join(", "));
    }
    pub fn others(&self) {
        self.intended.iter().for_each(|(name, n)| println!("{n:>9}  intended: {name}"));
        self.requested.iter().for_each(|(name, n)| println!("{n:>9}  left out, by request: {name}"));
        self.unknown.iter().for_each(|(name, n)| println!("{n:>9}  not compared: {name}"));
    }
}
