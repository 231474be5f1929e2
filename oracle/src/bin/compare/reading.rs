//! Which strings can be read, what stands in them, and what is written: the library beside the stand-ins' reader and writer, since the original has none.
use crate::kind::Kind;
use crate::library::{self, BYTE, WORD};
use crate::parts::{damaged, smaller_bytes, Tx};
use crate::random::Rng;
use crate::report::{Outcome, Source};
use crate::updates::any_update;
use oracle::calls::hex;
use oracle::case::{self, Case};
use oracle::standins::molecule::{part, readable, L, OUT_POINTS, RECORDS, SCRIPT, TRANSACTION};
use oracle::standins::packed::{List, Packed, Transaction};

/// A string, and room for what is written.
#[derive(Clone, Debug)]
pub struct Input {
    bytes: Vec<u8>,
    room: usize,
}

fn outcome(number: u32, what: &str, right: bool) -> Outcome {
    Outcome { number, source: Source::Reader, wrong: (!right).then(|| format!("{what}: the library answers {number} and differs")) }
}

pub struct Reading;

impl Reading {
    fn tests(s: &[u8]) -> Vec<Outcome> {
        type Test = fn(&[u8]) -> bool;
        let tests: [(&str, Test, &L); 4] = [
            ("is_transaction", library::is_transaction, &TRANSACTION),
            ("is_script", library::is_script, &SCRIPT),
            ("is_records", library::is_records, &RECORDS),
            ("is_out_points", library::is_out_points, &OUT_POINTS),
        ];
        let test = |(name, test, layout): &(&str, Test, &L)| {
            let said = test(s);
            outcome(0, name, said == readable(layout, s))
        };
        tests.iter().map(test).collect()
    }
    /// The items of the six lists, by their number; data entries and witnesses without their counts.
    fn lists(t: &Transaction) -> [Vec<Vec<u8>>; 6] {
        fn items<P: Packed>(l: List<P>) -> Vec<Vec<u8>> {
            l.into_iter().map(|p| p.raw().to_vec()).collect()
        }
        let content = |l: List<oracle::standins::packed::Bytes>| l.into_iter().map(|b| b.raw_data().to_vec()).collect();
        let raw = t.raw();
        let (deps, headers, inputs) = (items(raw.cell_deps()), items(raw.header_deps()), items(raw.inputs()));
        [deps, headers, inputs, items(raw.outputs()), content(raw.outputs_data()), content(t.witnesses())]
    }
    fn fields(input: &Input) -> Vec<Outcome> {
        let s = &input.bytes;
        let read = Transaction::read(s);
        let unread = if read.is_some() { 0 } else { 1 };
        let version: Vec<u64> = read.iter().map(|t| t.raw().version().into()).collect();
        let mut out = vec![told("version", unread, &version, |values| library::version(s, values))];
        let lists = read.as_ref().map(Self::lists).unwrap_or_default();
        let (no_items, none) = (vec![], vec![]);
        for k in 0..7 {
            let items = lists.get(k).filter(|_| read.is_some()).unwrap_or(&no_items);
            let no_list = if unread == 0 && k == 6 { 3 } else { unread };
            let count = if no_list == 0 { vec![items.len() as u64] } else { vec![] };
            out.push(told("item_count", no_list, &count, |values| library::item_count(s, k as u32, values)));
            out.push(places(s, k as u32, items, no_list, input.room));
            // each of a few, and one beyond
            for i in (0..items.len().min(3)).chain([items.len(), usize::MAX]) {
                let (item, answer) = match items.get(i) {
                    None => (&none, (if readable(&TRANSACTION, s) { 3 } else { 1 }, 0)),
                    Some(item) if item.len() > input.room => (&none, (13, 0)),
                    Some(item) => (item, (0, item.len() as u64)),
                };
                let call = |buffer: &mut [u8], values: &mut [u64; 4]| library::item(s, k as u32, i, buffer, values);
                out.push(written("item", input.room, item, answer, call));
            }
        }
        out
    }
    fn rewrite(input: &Input) -> Outcome {
        let s = &input.bytes;
        let number = match readable(&TRANSACTION, s) {
            false => 1,
            true if s.len() > input.room.min(133_116) => 13,
            true => 0,
        };
        let (written_bytes, count): (&[u8], _) = if number == 0 { (s, s.len() as u64) } else { (&[], 0) };
        written("rewrite", input.room, written_bytes, (number, count), |buffer, values| library::rewrite(s, buffer, values))
    }
    /// The transaction's six lists, written from where they stand in it.
    fn write(input: &Input) -> Option<Outcome> {
        let s = &input.bytes;
        let t = Transaction::read(s)?;
        let raw = t.raw();
        let field = |b: &[u8], i| {
            let (start, end) = part(b, i);
            b[start..end].to_vec()
        };
        let f: Vec<_> = (1..6).map(|i| field(raw.as_slice(), i)).collect();
        let w = field(s, 1);
        let fits = s.len() <= input.room.min(133_116);
        let (expected, answer): (&[u8], _) = if fits { (s, (0, s.len() as u64)) } else { (&[], (13, 0)) };
        let call = |buffer: &mut [u8], values: &mut [u64; 4]| {
            library::write_transaction(raw.version(), &f[0], &f[1], &f[2], &f[3], &f[4], &w, buffer, values)
        };
        Some(written("write_transaction", input.room, expected, answer, call))
    }
}
/// A call that tells values alone.
fn told(what: &str, expected: u32, values: &[u64], call: impl FnOnce(&mut [u64; 4]) -> u32) -> Outcome {
    let (number, said) = library::with_values(call);
    outcome(number, what, (number, said) == (expected, library::values(values)))
}
/// Where the items stand: each is read there, the words behind them are as they were, and with one word too few all of them are.
fn places(s: &[u8], list: u32, items: &[Vec<u8>], no_list: u32, room: usize) -> Outcome {
    let short = no_list == 0 && !items.is_empty() && room % 5 == 4;
    let mut words = vec![WORD; if short { 2 * items.len() - 1 } else { 2 * items.len() + 1 }];
    let (number, values) = library::with_values(|values| library::items(s, list, &mut words, values));
    if no_list != 0 || short {
        let kept = words.iter().all(|w| *w == WORD) && values == library::values(&[]);
        let source = if short { Source::Intended("13 where the original has no such bound: words for places") } else { Source::Reader };
        return Outcome { source, ..outcome(number, "items", number == if short { 13 } else { no_list } && kept) };
    }
    let stands = |place: &[u64], item: &Vec<u8>| place[1] == item.len() as u64 && s.get(place[0] as usize..).is_some_and(|s| s.starts_with(item));
    let right = words.chunks_exact(2).zip(items).all(|(place, item)| stands(place, item)) && words.last() == Some(&WORD);
    outcome(number, "items", right && (number, values) == (0, library::values(&[items.len() as u64])))
}
/// A call that writes to the start of a buffer: its answer with one value, what is written, and the rest of the buffer as it was.
fn written(what: &str, room: usize, expected: &[u8], answer: (u32, u64), call: impl FnOnce(&mut [u8], &mut [u64; 4]) -> u32) -> Outcome {
    let mut buffer = vec![BYTE; room];
    let (number, values) = library::with_values(|values| call(&mut buffer, values));
    let (front, rest) = buffer.split_at(expected.len().min(room));
    let told: &[u64] = if answer.0 == 0 { &[answer.1] } else { &[] };
    let right = (number, values) == (answer.0, library::values(told)) && front == expected && rest.iter().all(|b| *b == BYTE);
    let source = if answer.0 == 13 { Source::Intended("13 where the original has no such bound: a buffer") } else { Source::Reader };
    Outcome { source, ..outcome(number, what, right) }
}

impl Kind for Reading {
    type Input = Input;
    const NAME: &'static str = "reading";
    const FUNCTIONS: &'static [&'static str] = &[
        "basinpantry_is_transaction",
        "basinpantry_is_script",
        "basinpantry_is_records",
        "basinpantry_is_out_points",
        "basinpantry_version",
        "basinpantry_item_count",
        "basinpantry_items",
        "basinpantry_item",
        "basinpantry_rewrite",
        "basinpantry_write_transaction",
    ];
    const SHARE: u64 = 40;
    fn make(rng: &mut Rng, _: u64) -> Input {
        let u = any_update(rng).write();
        let inputs = Tx::read(&u.peer).unwrap().inputs;
        let points: Vec<&[u8]> = inputs.iter().map(|i| &i[8..]).collect();
        let points = crate::parts::sized_list(&points);
        let mut bytes = rng.pick(&[u.ours, u.peer.clone(), u.peer, u.source, u.records, points]);
        for _ in 0..rng.pick(&[0, 1, 1, 1, 2]) {
            bytes = damaged(rng, &bytes);
        }
        let n = bytes.len();
        let room = rng.pick(&[n, n, n + 9, n.saturating_sub(1), 40, 0]);
        Input { bytes, room }
    }
    fn compare(input: &Input) -> Vec<Outcome> {
        let mut out = Self::tests(&input.bytes);
        out.extend(Self::fields(input));
        out.push(Self::rewrite(input));
        out.extend(Self::write(input));
        out
    }
    fn smaller(input: &Input) -> Vec<Input> {
        smaller_bytes(&input.bytes).into_iter().map(|bytes| Input { bytes, ..input.clone() }).collect()
    }
    fn show(input: &Input) -> String {
        format!("  bytes {}\n  room {}", hex(&input.bytes), input.room)
    }
}

const NO_ROOM: &str = "13 where the original has no such bound: room for a line";

/// Case files and their lines.
pub struct CaseFile;

impl Kind for CaseFile {
    type Input = Vec<u8>;
    const NAME: &'static str = "case_file";
    const FUNCTIONS: &'static [&'static str] = &["basinpantry_check_case"];
    const SHARE: u64 = 20;
    fn make(rng: &mut Rng, _: u64) -> Vec<u8> {
        let plan = any_update(rng);
        let u = plan.write();
        let records = plan.records.iter().map(|r| r.as_ref().map(|(o, d)| (o.write(), d.clone()))).collect();
        let case = Case { ours: u.ours, peer: u.peer, lock: u.lock, type_: u.udt, source: u.source, rate: u.rate, records };
        let file = case.write();
        if rng.once_in(2) {
            damaged(rng, &file)
        } else {
            file
        }
    }
    fn compare(file: &Vec<u8>) -> Vec<Outcome> {
        let verdict = case::run_as_requested(file);
        // the line ends in a line feed
        let expected = format!("{verdict}\n");
        let long = expected.len();
        let mut line = [BYTE; 120];
        // as much room as it needs, now and then
        let room = if file.len() % 3 == 0 { long } else { 120 };
        let (answer, values) = library::with_values(|values| library::check_case(file, &mut line[..room], values));
        let right = (answer, values) == (0, library::values(&[long as u64]));
        let right = right && &line[..long] == expected.as_bytes() && line[long..].iter().all(|b| *b == BYTE);
        let (_, _, source) = crate::update::expected(&verdict);
        let number = line.iter().take_while(|b| b.is_ascii_digit()).fold(0, |k, d| 10 * k + (d - b'0') as u32);
        let said = String::from_utf8_lossy(&line[..long]).to_string();
        let mut out = vec![Outcome { number, source, wrong: (!right).then(|| format!("expected {expected:?}, the library says {answer} {said:?}")) }];
        if file.len().is_multiple_of(64) {
            let mut short = vec![BYTE; long - 1];
            let (none, values) = library::with_values(|values| library::check_case(file, &mut short, values));
            let kept = (none, values) == (13, library::values(&[])) && short.iter().all(|b| *b == BYTE);
            let wrong = (!kept).then(|| format!("room for one byte less: the library says {none}"));
            out.push(Outcome { number: none, source: Source::Intended(NO_ROOM), wrong });
        }
        out
    }
    fn smaller(file: &Vec<u8>) -> Vec<Vec<u8>> {
        smaller_bytes(file)
    }
    fn show(file: &Vec<u8>) -> String {
        format!("  file {}", hex(file))
    }
}
