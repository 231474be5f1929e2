//! One update: `update_for_peer` here and there.
use crate::kind::{all_of, Kind};
use crate::library;
use crate::parts::{damaged, dep, input, list, one_less, parts, smaller_bytes, Output, Tx};
use crate::random::Rng;
use crate::report::{Outcome, Source};
use crate::updates::{any_update, Plan, Update};
use oracle::calls::hex;
use oracle::original::update::{judge_as_requested, read_records, Lent, Verdict};

pub const PANICS: &str = "5 where the original panics: typed, and our output 0 has no data";

/// The number and the values that a verdict is to be told with.
pub fn expected(v: &Verdict) -> (u32, Vec<u64>, Source) {
    let halves = |n: u128| [n as u64, (n >> 64) as u64];
    match v {
        Verdict::Accept(c, t) => (0, [halves(*c), halves(*t)].concat(), Source::Acceptance),
        Verdict::Refuse(r) => (r.0 as u32, r.1.to_vec(), Source::Original),
        Verdict::Unreadable(n) => (*n as u32, vec![], Source::Reader),
        Verdict::Panic => (5, vec![], Source::Intended(PANICS)),
        Verdict::Requested(name, n) => (*n as u32, vec![], Source::Requested(name)),
    }
}
impl Update {
    pub fn lent(&self) -> Lent<'_> {
        let Update { peer, lock, udt, source, rate, records, .. } = self;
        Lent { peer, lock, udt, source, rate: *rate, records: read_records(records) }
    }
    /// The library's answer.
    pub fn call(&self, values: &mut [u64; 4]) -> u32 {
        library::update_for_peer(&self.ours, &self.peer, &self.lock, &self.udt, &self.source, self.rate, &self.records, values)
    }
    pub fn compare(&self) -> Outcome {
        let (number, told, source) = expected(&judge_as_requested(&self.ours, self.lent()));
        let (said, values) = library::with_values(|values| self.call(values));
        let differs = (said, values) != (number, library::values(&told));
        Outcome {
            number: said,
            source,
            wrong: differs.then(|| format!("expected {number} {told:?} ({source:?}), the library says {said} {values:?}")),
        }
    }
    pub fn smaller(&self) -> Vec<Update> {
        let mut out = vec![];
        if let (Some(a), Some(b)) = (Tx::read(&self.ours), Tx::read(&self.peer)) {
            out.extend(both_smaller(&a, &b).into_iter().map(|(a, b)| Update { ours: a.write(), peer: b.write(), ..self.clone() }));
        }
        out.extend(self.added_less());
        let fields: [fn(&mut Update) -> &mut Vec<u8>; 6] =
            [|u| &mut u.ours, |u| &mut u.peer, |u| &mut u.records, |u| &mut u.udt, |u| &mut u.lock, |u| &mut u.source];
        for field in fields {
            let mut less = self.clone();
            if !field(&mut less).is_empty() {
                let tried = smaller_bytes(field(&mut less));
                for bytes in [vec![]].into_iter().chain(tried) {
                    *field(&mut less) = bytes;
                    out.push(less.clone());
                }
            }
        }
        out
    }
    /// An added input less, with its record.
    fn added_less(&self) -> Vec<Update> {
        let shared = Tx::read(&self.ours).map_or(0, |t| t.inputs.len());
        let (Some(peer), true) = (Tx::read(&self.peer), read_records(&self.records).is_some()) else { return vec![] };
        let records = parts(&self.records);
        let without = |(i, records): (usize, Vec<&[u8]>)| {
            let mut peer = peer.clone();
            (shared + i < peer.inputs.len()).then(|| peer.inputs.remove(shared + i));
            Update { peer: peer.write(), records: list(&records), ..self.clone() }
        };
        one_less(&records).enumerate().map(without).collect()
    }
    pub fn show(&self) -> String {
        let Update { ours, peer, lock, udt, source, rate, records } = self;
        let named = [("ours", ours), ("peer", peer), ("lock", lock), ("udt", udt), ("source", source), ("records", records)];
        named.iter().map(|(name, b)| format!("  {name} {}\n", hex(b))).collect::<String>() + &format!("  rate {rate}")
    }
}
/// Both without the first item that a list of both begins with.
fn both_smaller(a: &Tx, b: &Tx) -> Vec<(Tx, Tx)> {
    let mut out = vec![];
    macro_rules! first_of {
        ($($list:ident)*) => {$(
            if let (Some(x), Some(y)) = (a.$list.first(), b.$list.first()) {
                if x == y {
                    let (mut a, mut b) = (a.clone(), b.clone());
                    a.$list.remove(0);
                    b.$list.remove(0);
                    out.push((a, b));
                }
            }
        )*};
    }
    first_of!(deps headers inputs outputs data);
    out
}

macro_rules! updates {
    ($name:ident, $text:expr, $share:expr, $make:expr, $compare:expr) => {
        impl Kind for $name {
            type Input = Update;
            const NAME: &'static str = $text;
            const FUNCTIONS: &'static [&'static str] = &["basinpantry_update_for_peer"];
            const SHARE: u64 = $share;
            fn make(rng: &mut Rng, _: u64) -> Update {
                $make(rng)
            }
            fn compare(input: &Update) -> Vec<Outcome> {
                $compare(input)
            }
            fn smaller(input: &Update) -> Vec<Update> {
                input.smaller()
            }
            fn show(input: &Update) -> String {
                input.show()
            }
        }
    };
}

/// Good updates, and changed ones.
pub struct Any;
updates!(Any, "update", 220, |rng: &mut Rng| any_update(rng).write(), |u: &Update| vec![u.compare()]);

/// Updates with damaged bytes.
pub struct Damaged;
updates!(Damaged, "update_damaged", 120, damaged_update, |u: &Update| vec![u.compare()]);

fn damaged_update(rng: &mut Rng) -> Update {
    let mut u = any_update(rng).write();
    for _ in 0..rng.pick(&[1, 1, 1, 2]) {
        let field = match rng.below(10) {
            0..=2 => &mut u.ours,
            3..=5 => &mut u.peer,
            6 => &mut u.lock,
            7 => &mut u.udt,
            8 => &mut u.source,
            _ => &mut u.records,
        };
        *field = damaged(rng, field);
    }
    u
}

/// Every shape with none, one or two items in each list of ours and of the peer's; and with none, one or two items behind each list of ours.
pub struct Small;
all_of!(Small, Any, "update_small", 160, APART + GROWN, |n| small(n).write());

/// Three lengths of each of five lists, or of each of four where there is one header dep.
const FIVE: u64 = 243;
const FOUR: u64 = 81;
/// Ours or none, the peer's, typed or not.
const APART: u64 = (FIVE + 1) * FIVE * 2;
/// Ours or none, what is added, typed or not, and three ways of lending records.
const GROWN: u64 = (FOUR + 1) * FOUR * 2 * 3;

/// How many cell deps, header deps, inputs, outputs and data entries.
type Lengths = [u64; 5];

fn lengths(n: u64) -> Lengths {
    [n % 3, n / 3 % 3, n / 9 % 3, n / 27 % 3, n / 81 % 3]
}
fn lengths_of_four(n: u64) -> Lengths {
    [n % 3, 1, n / 3 % 3, n / 9 % 3, n / 27 % 3]
}
/// Equal items in equal places, but for output 0, which grows.
fn shape(of: Lengths, capacity: u64, tokens: u128, lock: &[u8], peer: &[u8], udt: &[u8]) -> Tx {
    let output = |i| if i == 0 { Output::new(capacity, lock, udt) } else { Output::new(500, peer, udt) };
    let data = |i| match i {
        _ if udt.is_empty() => vec![],
        0 => tokens.to_le_bytes().to_vec(),
        _ => 7u128.to_le_bytes().to_vec(),
    };
    Tx {
        deps: (0..of[0]).map(|i| dep(i as u8, 0)).collect(),
        headers: (0..of[1]).map(|i| [i as u8; 32]).collect(),
        inputs: (0..of[2]).map(|i| input(i as u32, 0)).collect(),
        outputs: (0..of[3]).map(output).collect(),
        data: (0..of[4]).map(data).collect(),
        ..Tx::default()
    }
}
fn small(n: u64) -> Plan {
    let script = |code| crate::parts::script(code, 0, &[]);
    let (lock, source, peer) = (script(1), script(3), script(4));
    let (udt, n) = (if n % 2 == 1 { script(2) } else { vec![] }, n / 2);
    // of ours one number is left for none
    let (records, ours, theirs) = match n.checked_sub(APART / 2) {
        None => (0, (n / FIVE).checked_sub(1).map(lengths), lengths(n % FIVE)),
        Some(n) => {
            let (records, n) = (n % 3, n / 3);
            let (ours, more) = ((n / FOUR).checked_sub(1).map(lengths_of_four), lengths_of_four(n % FOUR));
            let had = ours.unwrap_or_default();
            (records, ours, std::array::from_fn(|i| had[i] + if i == 1 { 0 } else { more[i] }))
        }
    };
    let ours = ours.map(|of| shape(of, 1_000, 10, &lock, &peer, &udt));
    let theirs = shape(theirs, 2_000, 30, &lock, &peer, &udt);
    let shared = ours.as_ref().map_or(0, |t| t.inputs.len());
    let live = Some((Output::new(5_000, &peer, &udt), 40u128.to_le_bytes().to_vec()));
    let mut lent = vec![live; theirs.inputs.len().saturating_sub(shared)];
    match records {
        0 => {}
        1 => lent.iter_mut().take(1).for_each(|r| *r = None),
        _ => {
            lent.pop();
        }
    }
    Plan { ours, peer: theirs, lock, udt, source, rate: 1_000, records: lent }
}
