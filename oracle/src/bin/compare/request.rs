//! A request of our own side, here and there: the funding cell, the token pick, the base transaction.
use crate::library::{self, BYTE};
use crate::parts::{list, one_less, parts, sized_list, smaller_bytes};
use crate::report::{Outcome, Source};
use crate::updates::read_amount;
use oracle::calls::hex;
use oracle::original::request::{sorted_deps, Answer, Request};
use oracle::original::Refusal;
use oracle::standins::molecule::{readable, CELL_DEPS, SCRIPT, TOKEN_CELLS, TRANSACTION};
use oracle::standins::packed::{CellDep, OutPoint, Script, Transaction};

const PANICS: &str = "12 where the original panics: a token cell with data under 16 bytes";
const ROOM: &str = "13 where the original has no such bound: the lent buffer, or 133,116 bytes";
const NO_DEPS: &str = "0 where the original's build_udt_inputs_outputs fails: the token's deps are not supplied, which only build_base asks for";
const EXTRA: &str = "the lock's dep is lent apart: the original's resolver prefers the first extra dep";

/// What is lent.
#[derive(Clone, Debug, Default)]
pub struct Input {
    pub ours: Vec<u8>,
    pub lock: Vec<u8>,
    pub udt: Vec<u8>,
    pub source: Vec<u8>,
    pub cells: Vec<u8>,
    pub udt_deps: Vec<u8>,
    pub lock_dep: Vec<u8>,
    pub extra_deps: Vec<u8>,
    pub local: u128,
    pub local_reserved: u64,
    pub remote: u128,
    pub remote_reserved: u64,
    pub room: usize,
    /// How the original is given the cells and the lock's dep.
    pub at_once: usize,
    pub external: bool,
}

/// What an answer is to be: its number, the values, and what is written.
struct Expected {
    number: u32,
    values: Vec<u64>,
    written: Vec<u8>,
    source: Source,
}
impl Expected {
    fn refused(number: u32, source: Source) -> Self {
        Expected { number, values: vec![], written: vec![], source }
    }
    fn unreadable(number: u32) -> Self {
        Self::refused(number, Source::Reader)
    }
    /// Of what is written, which has to fit.
    fn within(self, room: usize) -> Self {
        if self.written.len() > room.min(133_116) {
            return Self::refused(13, Source::Intended(ROOM));
        }
        self
    }
    /// Beside what the library says and leaves in the buffer.
    fn outcome(&self, number: u32, values: [u64; 4], buffer: &[u8]) -> Outcome {
        let Expected { written, source, .. } = self;
        let (front, rest) = buffer.split_at(written.len().min(buffer.len()));
        let right = (number, values) == (self.number, library::values(&self.values)) && front == written && rest.iter().all(|b| *b == BYTE);
        let wrong = || {
            let (n, v) = (self.number, &self.values);
            format!("expected {n} {v:?} {} ({source:?}), the library says {number} {values:?} {}", hex(written), hex(front))
        };
        Outcome { number, source: *source, wrong: (!right).then(wrong) }
    }
}

fn optional(b: &[u8], read: impl Fn(&[u8]) -> bool) -> bool {
    b.is_empty() || read(b)
}
fn is_script(b: &[u8]) -> bool {
    readable(&SCRIPT, b)
}
fn deps(b: &[u8]) -> Vec<CellDep> {
    b[4..].chunks(37).map(|d| CellDep::read(d).unwrap()).collect()
}
fn halves(n: u128) -> [u64; 2] {
    [n as u64, (n >> 64) as u64]
}

impl Input {
    /// With the parts that were read.
    pub fn request(&self) -> Request {
        let cell = |c: &[u8]| (OutPoint::read(parts(c)[0]).unwrap(), parts(c)[1][4..].to_vec());
        Request {
            ours: Transaction::read(&self.ours),
            lock: Script::read(&self.lock).unwrap_or_default(),
            udt: Script::read(&self.udt),
            source: Script::read(&self.source).unwrap_or_default(),
            local: self.local,
            local_reserved: self.local_reserved,
            remote: self.remote,
            remote_reserved: self.remote_reserved,
            cells: if readable(&TOKEN_CELLS, &self.cells) { parts(&self.cells).into_iter().map(cell).collect() } else { vec![] },
            at_once: self.at_once,
            udt_deps: readable(&CELL_DEPS, &self.udt_deps).then(|| deps(&self.udt_deps)),
            lock_dep: CellDep::read(&self.lock_dep),
            extra_deps: if readable(&CELL_DEPS, &self.extra_deps) { deps(&self.extra_deps) } else { vec![] },
            external: self.external,
        }
    }
    pub fn ours_readable(&self) -> bool {
        optional(&self.ours, |b| readable(&TRANSACTION, b))
    }
    pub fn funding_cell(&self) -> Outcome {
        let expected = if !self.ours_readable() {
            Expected::unreadable(1)
        } else if !optional(&self.udt, is_script) {
            Expected::unreadable(3)
        } else {
            match self.request().funding_cell() {
                Ok((output, data)) => {
                    use oracle::standins::view::prelude::Unpack;
                    assert!(data.len() == if self.udt.is_empty() { 0 } else { 16 });
                    let [low, high] = halves(read_amount(&data).unwrap_or(0));
                    let values = vec![output.capacity().unpack(), low, high];
                    Expected { number: 0, values, written: vec![], source: Source::Original }
                }
                Err(e) => Expected::refused(e.0 as u32, Source::Original),
            }
        };
        let ([ll, lh], [rl, rh]) = (halves(self.local), halves(self.remote));
        let (number, values) = library::with_values(|values| {
            library::build_funding_cell(&self.ours, &self.udt, ll, lh, self.local_reserved, rl, rh, self.remote_reserved, values)
        });
        expected.outcome(number, values, &[])
    }
    pub fn pick(&self) -> Outcome {
        let expected = if !(readable(&TOKEN_CELLS, &self.cells) && optional(&self.udt, is_script) && is_script(&self.source)) {
            Expected::unreadable(3)
        } else {
            let request = self.request();
            // without the token's deps the original fails after the pick: with an empty list of them it is to say what is said here
            let (request, fails) = match request.pick() {
                Answer::Refused(Refusal(11, _)) if request.udt_deps.is_none() => (Request { udt_deps: Some(vec![]), ..request }, true),
                _ => (request, false),
            };
            let expected = match request.pick() {
                Answer::Done((inputs, change)) => {
                    use oracle::standins::view::prelude::Unpack;
                    // the cells in their order, with since 0
                    let picked = inputs.iter().map(|i| i.as_slice()[8..].to_vec());
                    assert!(picked.eq(request.cells.iter().take(inputs.len()).map(|c| c.0.as_slice().to_vec())));
                    assert!(inputs.iter().all(|i| i.as_slice()[..8] == [0; 8]));
                    let mut values = vec![inputs.len() as u64, 0, 0, 0];
                    let mut written = vec![];
                    if let Some((output, data)) = change {
                        assert!(data.len() == 16);
                        values[1..3].copy_from_slice(&halves(read_amount(&data).unwrap()));
                        values[3] = output.capacity().unpack();
                        written = output.as_slice().to_vec();
                    }
                    Expected { number: 0, values, written, source: Source::Original }.within(self.room)
                }
                Answer::Refused(e) => Expected::refused(e.0 as u32, Source::Original),
                Answer::Panics => Expected::refused(12, Source::Intended(PANICS)),
            };
            match expected.source {
                Source::Original if fails => Expected { source: Source::Intended(NO_DEPS), ..expected },
                _ => expected,
            }
        };
        let mut buffer = vec![BYTE; self.room];
        let [low, high] = halves(self.local);
        let (number, values) =
            library::with_values(|values| library::build_udt_inputs_outputs(&self.cells, &self.udt, &self.source, low, high, &mut buffer, values));
        expected.outcome(number, values, &buffer)
    }
    pub fn lent_readable(&self) -> bool {
        let is_deps = |b: &[u8]| readable(&CELL_DEPS, b);
        let scripts = is_script(&self.lock) && optional(&self.udt, is_script) && is_script(&self.source);
        let lists = readable(&TOKEN_CELLS, &self.cells) && optional(&self.udt_deps, is_deps) && is_deps(&self.extra_deps);
        scripts && lists && optional(&self.lock_dep, |b| b.len() == 37)
    }
    /// The base transaction has its cell deps in an order of its own, so the library's is compared with its deps sorted; that order is checked apart.
    pub fn base(&self) -> Outcome {
        let mut buffer = vec![BYTE; self.room];
        let ([ll, lh], [rl, rh]) = (halves(self.local), halves(self.remote));
        let Input { ours, lock, udt, source, cells, udt_deps, lock_dep, extra_deps, local_reserved, remote_reserved, .. } = self;
        let (number, values) = library::with_values(|values| {
            library::build_base(
                ours,
                lock,
                udt,
                source,
                cells,
                udt_deps,
                lock_dep,
                extra_deps,
                ll,
                lh,
                *local_reserved,
                rl,
                rh,
                *remote_reserved,
                &mut buffer,
                values,
            )
        });
        let mut expected = if !self.ours_readable() {
            Expected::unreadable(1)
        } else if !self.lent_readable() {
            Expected::unreadable(3)
        } else {
            let request = self.request();
            match request.base() {
                Answer::Done(t) => {
                    let written = t.as_slice().to_vec();
                    let values = vec![written.len() as u64];
                    Expected { number: 0, values, written, source: Source::Original }.within(self.room)
                }
                Answer::Refused(e) => Expected::refused(e.0 as u32, Source::Original),
                Answer::Panics => Expected::refused(12, Source::Intended(PANICS)),
            }
        };
        // The library's own deps: sorted as the original's are, after a look at their order.
        if let (0, Some(t)) = (number, buffer.get(..values[0] as usize).and_then(Transaction::read)) {
            if !self.ordered(&t) {
                return Outcome { number, source: Source::Original, wrong: Some("cell deps in another order".into()) };
            }
            buffer[..values[0] as usize].copy_from_slice(sorted_deps(&t).as_slice());
        }
        let outcome = expected.outcome(number, values, &buffer);
        if outcome.wrong.is_some() && self.another_lock_dep() {
            // with the dep that the original's resolver prefers, the two are to agree
            let first = self.extra_deps[4..41].to_vec();
            let again = Input { lock_dep: first, external: false, ..self.clone() }.base();
            let plain = Input { external: false, ..self.clone() }.base();
            expected.source = Source::Intended(EXTRA);
            return Outcome { number, source: expected.source, wrong: again.wrong.or(plain.wrong) };
        }
        outcome
    }
    fn another_lock_dep(&self) -> bool {
        self.external && self.lent_readable() && self.extra_deps.len() >= 41 && self.extra_deps[4..41] != self.lock_dep
    }
    /// Cell deps: present, the token's and the lock's if tokens were picked, extra; the first occurrence of each.
    fn ordered(&self, base: &Transaction) -> bool {
        let request = self.request();
        let present: Vec<_> = request.ours.iter().flat_map(|t| t.raw().cell_deps()).collect();
        let had = request.ours.as_ref().map_or(0, |t| t.raw().inputs().len());
        let mut all = present;
        if base.raw().inputs().len() > had {
            all.extend(request.udt_deps.unwrap_or_default());
            all.extend(request.lock_dep);
        }
        all.extend(request.extra_deps);
        let mut once: Vec<CellDep> = vec![];
        all.into_iter().for_each(|d| {
            if !once.contains(&d) {
                once.push(d)
            }
        });
        base.raw().cell_deps().into_iter().eq(once)
    }
    pub fn smaller(&self) -> Vec<Input> {
        let mut out = vec![];
        let fields: [fn(&mut Input) -> &mut Vec<u8>; 8] = [
            |r| &mut r.ours,
            |r| &mut r.cells,
            |r| &mut r.udt,
            |r| &mut r.udt_deps,
            |r| &mut r.lock_dep,
            |r| &mut r.extra_deps,
            |r| &mut r.lock,
            |r| &mut r.source,
        ];
        for field in fields {
            let mut less = self.clone();
            let bytes = field(&mut less).clone();
            if bytes.is_empty() {
                continue;
            }
            let mut tried = vec![vec![]];
            if readable(&TOKEN_CELLS, &bytes) {
                tried.extend(one_less(&parts(&bytes)).map(|v| list(&v)));
            } else if readable(&CELL_DEPS, &bytes) {
                tried.extend(one_less(&bytes[4..].chunks(37).collect::<Vec<_>>()).map(|v| sized_list(&v)));
            }
            tried.extend(smaller_bytes(&bytes));
            for t in tried {
                *field(&mut less) = t;
                out.push(less.clone());
            }
        }
        for n in [0, 1, self.local / 2] {
            if n < self.local {
                out.push(Input { local: n, ..self.clone() });
            }
        }
        out
    }
    pub fn show(&self) -> String {
        let named = [
            ("ours", &self.ours),
            ("lock", &self.lock),
            ("udt", &self.udt),
            ("source", &self.source),
            ("cells", &self.cells),
            ("udt_deps", &self.udt_deps),
            ("lock_dep", &self.lock_dep),
            ("extra_deps", &self.extra_deps),
        ];
        let Input { local, local_reserved, remote, remote_reserved, room, at_once, external, .. } = self;
        let bytes: String = named.iter().map(|(name, b)| format!("  {name} {}\n", hex(b))).collect();
        bytes + &format!("  local {local} {local_reserved}, remote {remote} {remote_reserved}, room {room}, at once {at_once}, external {external}")
    }
}
