//! A list of updates, each judged against the transaction that the one before it left in force: call by call, and as one call of `replay`.
use crate::changes::change;
use crate::kind::Kind;
use crate::library;
use crate::parts::{bytes, damaged, list, one_less, parts, smaller_bytes, Output, Tx};
use crate::random::Rng;
use crate::report::{Outcome, Source};
use crate::update::{expected, PANICS};
use crate::updates::{channel, good, in_force, read_amount, Update};
use oracle::calls::hex;
use oracle::original::update::{InForce, Verdict};
use oracle::standins::molecule::{readable, UPDATES};

#[derive(Clone, Debug)]
pub struct Input {
    start: Vec<u8>,
    lock: Vec<u8>,
    udt: Vec<u8>,
    /// Their own transaction, lock and type are not used.
    updates: Vec<Update>,
    /// The list for `replay`, where it is another than these updates are.
    damaged: Option<Vec<u8>>,
    /// How many words are lent for the answers, less than five for each update.
    short: usize,
}

pub struct Negotiation;

/// An update of a lent list.
fn read_update(b: &[u8]) -> Update {
    let p = parts(b);
    let (peer, records, source) = (p[0][4..].to_vec(), p[1][4..].to_vec(), p[2][4..].to_vec());
    Update { peer, records, source, rate: u64::from_le_bytes(p[3].try_into().unwrap()), ..Update::default() }
}

/// A number of up to 192 bits.
#[derive(Clone, Copy, Debug, Default, PartialEq)]
struct Wide(u64, u128);

impl Wide {
    fn add(self, n: u128) -> Wide {
        let (low, carry) = self.1.overflowing_add(n);
        Wide(self.0 + carry as u64, low)
    }
}

/// One way of counting what is brought in and what remains: shannons, or the tokens of a type.
struct Measure<'a>(&'a dyn Fn(&Output, &[u8]) -> u128, &'a dyn Fn(&Tx) -> u128);

/// Whether the surpluses sum to that of the end against the start: with what output 0 grew and what was added behind it, they are all that was brought in.
fn sums(m: Measure, start: &Tx, end: &Tx, surpluses: &[u128], kept: &[(Output, Vec<u8>)]) -> bool {
    let growth = m.1(end) - m.1(start);
    let none = vec![];
    let added = end.outputs.iter().enumerate().skip(start.outputs.len().max(1));
    let added = added.map(|(i, o)| m.0(o, end.data.get(i).unwrap_or(&none)));
    let remains = surpluses.iter().copied().chain([growth]).chain(added).fold(Wide::default(), Wide::add);
    let brought = kept.iter().map(|(o, d)| m.0(o, d)).fold(Wide::default(), Wide::add);
    remains == brought
}

/// Of a list of answers: it is the original's only where all of them are.
fn source_of(verdicts: &[Verdict]) -> Source {
    let has = |kind: fn(&Verdict) -> bool| verdicts.iter().any(kind);
    if has(|v| *v == Verdict::Panic) {
        Source::Intended(PANICS)
    } else if let Some(name) = verdicts.iter().find_map(|v| if let Verdict::Requested(name, _) = v { Some(*name) } else { None }) {
        Source::Requested(name)
    } else if has(|v| matches!(v, Verdict::Unreadable(_))) {
        Source::Reader
    } else if has(|v| matches!(v, Verdict::Accept(..))) {
        Source::Acceptance
    } else {
        Source::Original
    }
}

impl Input {
    /// What is wrong with the sums, of the updates that were accepted and their surpluses.
    fn wrong_sums(&self, end: &[u8], accepted: &[(&Update, (u128, u128))]) -> Option<String> {
        if accepted.is_empty() {
            return (end != self.start).then(|| "nothing was accepted, and another transaction is in force".into());
        }
        let (start, end) = (Tx::read(&self.start).unwrap_or_default(), Tx::read(end).unwrap());
        let record = |r: &[u8]| (Output::read(parts(r)[0]), parts(r)[1][4..].to_vec());
        let kept: Vec<_> = accepted.iter().flat_map(|(u, _)| parts(&u.records)).map(record).collect();
        let of_type = |o: &Output, d: &[u8]| if !self.udt.is_empty() && o.udt == self.udt { read_amount(d).unwrap_or(0) } else { 0 };
        let first = |t: &Tx| match t.data.first() {
            Some(d) if !self.udt.is_empty() && !t.outputs.is_empty() => read_amount(d).unwrap_or(0),
            _ => 0,
        };
        let shannons = Measure(&|o, _| o.capacity as u128, &|t| t.outputs.first().map_or(0, |o| o.capacity as u128));
        let capacities: Vec<_> = accepted.iter().map(|(_, s)| s.0).collect();
        let tokens: Vec<_> = accepted.iter().map(|(_, s)| s.1).collect();
        let right = sums(shannons, &start, &end, &capacities, &kept) && sums(Measure(&of_type, &first), &start, &end, &tokens, &kept);
        (!right).then(|| "the surpluses do not sum to that of the end against the start".into())
    }
    fn list(&self) -> Vec<u8> {
        let update = |u: &Update| list(&[bytes(&u.peer), bytes(&u.records), bytes(&u.source), u.rate.to_le_bytes().to_vec()]);
        self.damaged.clone().unwrap_or_else(|| list(&self.updates.iter().map(update).collect::<Vec<_>>()))
    }
    /// What the original says of a list of updates, and which transaction is then in force: 0 for the one at the start, k + 1 for that of update k.
    fn judged(&self, updates: &[Update]) -> (Vec<Verdict>, usize) {
        let mut in_force = InForce::read(&self.start);
        let judge = |u: &Update| {
            let call = Update { lock: self.lock.clone(), udt: self.udt.clone(), ..u.clone() };
            in_force.as_mut().map_or(Verdict::Unreadable(1), |o| o.update_as_requested(call.lent()))
        };
        let verdicts: Vec<Verdict> = updates.iter().map(judge).collect();
        let at = verdicts.iter().rposition(|v| matches!(v, Verdict::Accept(..))).map_or(0, |k| k + 1);
        (verdicts, at)
    }
    /// One call of `replay`, over the list as it is lent.
    fn replay(&self) -> Outcome {
        let lent = self.list();
        let updates = readable(&UPDATES, &lent).then(|| parts(&lent).into_iter().map(read_update).collect::<Vec<_>>());
        let count = updates.as_ref().map_or(0, Vec::len);
        let room = (5 * count + 1).saturating_sub(self.short);
        let mut words = vec![u64::MAX; room];
        let (number, values) = library::with_values(|v| library::replay(&self.start, &self.lock, &self.udt, &lent, &mut words, v));
        let mut left = vec![u64::MAX; room];
        let (wanted, source) = match updates {
            None => ((3, vec![]), Source::Reader),
            Some(_) if room < 5 * count => ((13, vec![]), Source::Intended("13 where the original has no such bound: the answers of replay")),
            Some(updates) => {
                let (verdicts, at) = self.judged(&updates);
                for (k, v) in verdicts.iter().enumerate() {
                    let (n, values, _) = expected(v);
                    left[5 * k] = n as u64;
                    left[5 * k + 1..5 * k + 5].fill(0);
                    left[5 * k + 1..][..values.len()].copy_from_slice(&values);
                }
                let accepted = verdicts.iter().filter(|v| matches!(v, Verdict::Accept(..))).count();
                ((0, vec![count as u64, accepted as u64, at as u64]), source_of(&verdicts))
            }
        };
        let differs = (number, values) != (wanted.0, library::values(&wanted.1)) || words != left;
        let wrong = || format!("replay: expected {wanted:?} {left:?}, the library says {number} {values:?} {words:?}");
        Outcome { number, source, wrong: differs.then(wrong) }
    }
    fn calls(&self) -> Vec<Outcome> {
        let mut original = InForce::read(&self.start);
        let mut here = &self.start;
        let (mut out, mut accepted) = (vec![], vec![]);
        for (k, u) in self.updates.iter().enumerate() {
            let call = Update { ours: here.clone(), lock: self.lock.clone(), udt: self.udt.clone(), ..u.clone() };
            let verdict = original.as_mut().map_or(Verdict::Unreadable(1), |o| o.update_as_requested(call.lent()));
            let (number, told, source) = expected(&verdict);
            let (said, values) = library::with_values(|values| call.call(values));
            let mut wrong = None;
            if (said, values) != (number, library::values(&told)) {
                wrong = Some(format!("update {k}: expected {number} {told:?} ({source:?}), the library says {said} {values:?}"));
            }
            if let Verdict::Accept(c, t) = verdict {
                accepted.push((u, (c, t)));
                here = &u.peer;
            }
            if original.as_ref().is_some_and(|o| o.bytes() != *here) {
                wrong = Some(format!("update {k}: another transaction is in force"));
            }
            out.push(Outcome { number: said, source, wrong });
        }
        if let (Some(wrong), Some(last)) = (self.wrong_sums(here, &accepted), out.last_mut()) {
            last.wrong = Some(wrong);
        }
        if out.iter().all(|o| o.wrong.is_none()) {
            out.push(self.replay());
        }
        out
    }
}

impl Kind for Negotiation {
    type Input = Input;
    const NAME: &'static str = "negotiation";
    const FUNCTIONS: &'static [&'static str] = &["basinpantry_update_for_peer", "basinpantry_replay"];
    const SHARE: u64 = 80;
    fn make(rng: &mut Rng, _: u64) -> Input {
        let c = channel(rng);
        let mut start = in_force(rng, &c);
        if rng.once_in(30) {
            start.iter_mut().for_each(|t| t.data.clear());
        }
        let start = start.map_or(vec![], |t| t.write());
        let start = if rng.once_in(60) { damaged(rng, &start) } else { start };
        let mut now = InForce::read(&start).unwrap_or_default();
        let (mut updates, mut older) = (vec![], Tx::read(&start));
        for _ in 0..rng.between(1, 6) {
            let ours = if rng.once_in(12) { older.clone() } else { Tx::read(&now.bytes()) };
            let mut plan = good(rng, &c, ours.clone());
            for _ in 0..rng.pick(&[0, 0, 0, 0, 0, 1, 1, 2]) {
                change(rng, &mut plan);
            }
            (plan.lock, plan.udt) = (c.lock.clone(), c.udt.clone());
            let mut update = plan.write();
            if rng.once_in(20) {
                update.peer = damaged(rng, &update.peer);
            }
            if let Verdict::Accept(..) = now.update_as_requested(update.lent()) {
                older = ours;
            }
            updates.push(update);
        }
        let mut input = Input { start, lock: c.lock, udt: c.udt, updates, damaged: None, short: 0 };
        match rng.below(20) {
            0 => input.damaged = Some(damaged(rng, &input.list())),
            1 => input.short = rng.between(1, 6),
            _ => {}
        }
        input
    }
    fn compare(input: &Input) -> Vec<Outcome> {
        input.calls()
    }
    fn smaller(input: &Input) -> Vec<Input> {
        let mut out: Vec<Input> = one_less(&input.updates).map(|updates| Input { updates, ..input.clone() }).collect();
        out.extend(smaller_bytes(&input.start).into_iter().map(|start| Input { start, ..input.clone() }));
        for (k, u) in input.updates.iter().enumerate() {
            for less in u.smaller() {
                let mut less_of = input.clone();
                less_of.updates[k] = less;
                out.push(less_of);
            }
        }
        out
    }
    fn show(input: &Input) -> String {
        let head = format!("  start {}\n  lock {}\n  udt {}\n", hex(&input.start), hex(&input.lock), hex(&input.udt));
        let update = |u: &Update| format!("  peer {}\n  source {}\n  rate {}\n  records {}\n", hex(&u.peer), hex(&u.source), u.rate, hex(&u.records));
        let list = input.damaged.as_ref().map_or(String::new(), |d| format!("  updates {}\n", hex(d)));
        head + &input.updates.iter().map(update).collect::<String>() + &list + &format!("  words left out: {}", input.short)
    }
}
