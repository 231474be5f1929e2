//! `oracle --calls`: one call of the original by input line, one answer line each. Bytes are hex, `-` is none.
//! What the original leaves without order (maps, sets) is printed sorted.
use crate::case::Case;
use crate::original::{exclusions, holds, request::*, update::*, Point};
use crate::standins::packed::*;
use std::io::{BufRead, Write};

pub fn hex(b: &[u8]) -> String {
    if b.is_empty() {
        return "-".into();
    }
    b.iter().map(|x| format!("{x:02x}")).collect()
}
fn unhex(s: &str) -> Vec<u8> {
    if s == "-" {
        return vec![];
    }
    let digit = |c: u8| (c as char).to_digit(16).expect("hex") as u8;
    s.as_bytes().chunks(2).map(|c| digit(c[0]) << 4 | digit(c[1])).collect()
}
fn points(s: &str) -> Vec<Point> {
    unhex(s).chunks(36).map(|c| c.try_into().expect("out point")).collect()
}
fn deps(s: &str) -> Vec<CellDep> {
    unhex(s).chunks(37).map(|c| CellDep::read(c).expect("cell dep")).collect()
}
fn joined(v: impl IntoIterator<Item = Point>) -> String {
    hex(&v.into_iter().flatten().collect::<Vec<u8>>())
}
fn sorted(mut v: Vec<Point>) -> String {
    v.sort();
    joined(v)
}
fn script(s: &str) -> Option<Script> {
    (s != "-").then(|| Script::read(&unhex(s)).expect("script"))
}
fn hash(s: &str) -> exclusions::Hash {
    unhex(s).try_into().expect("hash")
}

#[derive(Default)]
struct State {
    map: exclusions::Map,
    in_force: InForce,
}

fn dumped_holds() -> String {
    let holds = holds::dump();
    let funding = holds.funding.iter().flat_map(|(h, v)| v.iter().map(move |o| format!("{h}:{}", hex(o))));
    let mut v: Vec<String> = funding.collect();
    v.extend(holds.watchtower.iter().map(|(o, end)| format!("w:{}:{end}", hex(o))));
    v.sort();
    v.join(" ")
}
fn dumped_map(map: &exclusions::Map) -> String {
    let entry =
        |(h, (c, o)): (exclusions::Hash, (Option<u64>, Vec<Point>))| format!("{}:{}:{}", hex(&h), c.map_or("-".into(), |c| c.to_string()), joined(o));
    let mut v: Vec<String> = map.entries().into_iter().map(entry).collect();
    v.sort();
    v.join(" ")
}

/// Where the original panics, `panic` stands behind a tab.
/// cell|base OURS LOCK TYPE SOURCE LOCAL LOCAL_RESERVE REMOTE REMOTE_RESERVE
///      [CELLS (point+data, comma between) TOKEN_DEPS (no: not supplied) LOCK_DEP EXTRA AT_ONCE]
fn request(a: &[&str]) -> String {
    let n = |i: usize| a[i].parse::<u64>().unwrap();
    let big = |i: usize| a[i].parse::<u128>().unwrap();
    let ours = unhex(a[1]);
    let mut r = Request {
        ours: (!ours.is_empty()).then(|| Transaction::read(&ours).expect("transaction")),
        lock: script(a[2]).unwrap(),
        udt: script(a[3]),
        source: script(a[4]).unwrap(),
        local: big(5),
        local_reserved: n(6),
        remote: big(7),
        remote_reserved: n(8),
        ..Default::default()
    };
    if a[0] == "cell" {
        return match r.funding_cell() {
            Ok((o, d)) => format!("0 {} {}", hex(o.as_slice()), hex(&d)),
            Err(e) => e.to_string(),
        };
    }
    let cell = |s: &str| {
        let v = unhex(s);
        (OutPoint::read(&v[..36]).unwrap(), v[36..].to_vec())
    };
    r.cells = a[9].split(',').filter(|s| *s != "-").map(cell).collect();
    r.udt_deps = (a[10] != "no").then(|| deps(a[10]));
    r.lock_dep = deps(a[11]).first().cloned();
    r.extra_deps = deps(a[12]);
    r.at_once = n(13) as usize;
    match r.base() {
        Answer::Done(t) => format!("0 {}", hex(t.as_slice())),
        Answer::Refused(e) => e.to_string(),
        Answer::Panics => "12\tpanic".into(),
    }
}

fn call(st: &mut State, a: &[&str]) -> String {
    let n = |i: usize| a[i].parse::<u64>().unwrap();
    match a[0] {
        "reset" => holds::reset(),
        "hold_funding" => holds::hold_funding(n(1), &points(a[2])),
        "hold_watch" => holds::hold_for_watchtower(&points(a[2]), n(1)),
        "release" => holds::release_for_watchtower(&points(a[1])),
        "take" => {
            let holder = (a[1] != "w").then(|| n(1));
            let (taken, refused) = holds::take(&points(a[3]), &points(a[4]), holder, n(2));
            return format!("{} {}", joined(taken), joined(refused));
        }
        "unavailable" => return joined(holds::unavailable(&points(a[2]), &points(a[3]), n(1))),
        "lock_held" => return sorted(holds::lock_held(n(1))),
        "holds" => return dumped_holds(),
        "x_reset" => st.map = exclusions::Map::default(),
        "x_add" => return st.map.add_by_itself(&unhex(a[1])).map_or("-".into(), |h| hex(&h)),
        "x_commit" => st.map.commit(&hash(a[1]), n(2)),
        "x_remove" => st.map.remove(&hash(a[1])),
        "x_truncate" => st.map.truncate(n(1)),
        "x_migrate" => st.map.migrate_by_itself(&hash(a[1]), &unhex(a[2])),
        "x_apply" => return sorted(st.map.apply()),
        "x_dump" => return dumped_map(&st.map),
        "cell" | "base" => return request(a),
        // A negotiation: start from a transaction, then updates as case files (their item 1 is not read).
        "n_start" => st.in_force = InForce::read(&unhex(a[1])).expect("transaction"),
        "n_update" => {
            let v = match Case::parse_any(&unhex(a[1])) {
                Some(c) => c.judge_in(&mut st.in_force),
                None => Verdict::Unreadable(3),
            };
            let tokens = if let Verdict::Accept(_, t) = v { format!(" {t:032x}") } else { String::new() };
            return format!("{v}{tokens} | {}", hex(&st.in_force.bytes()));
        }
        x => panic!("no call {x}"),
    }
    "ok".into()
}

pub fn run() {
    let mut st = State::default();
    let mut out = std::io::BufWriter::new(std::io::stdout().lock());
    for line in std::io::stdin().lock().lines() {
        let line = line.unwrap();
        let a: Vec<&str> = line.split_whitespace().collect();
        if !a.is_empty() {
            writeln!(out, "{}", call(&mut st, &a)).unwrap();
        }
    }
}
