// Times `is_transaction` over transactions of several sizes and shapes: see bench/run.
mod library;

use library::is_transaction;
use std::hint::black_box;
use std::process::Command;
use std::time::Instant;

// ---- transactions, written by this file alone

fn word(n: usize) -> [u8; 4] {
    (n as u32).to_le_bytes()
}

fn bytes(x: &[u8]) -> Vec<u8> {
    [&word(x.len()), x].concat()
}

fn items(xs: &[Vec<u8>]) -> Vec<u8> {
    let mut at = 4 + 4 * xs.len();
    let mut head = Vec::new();
    for x in xs {
        head.extend(word(at));
        at += x.len();
    }
    [&word(at)[..], &head, &xs.concat()].concat()
}

fn output() -> Vec<u8> {
    let lock = items(&[vec![0; 32], vec![0], bytes(&[])]);
    items(&[10_000_000_000u64.to_le_bytes().to_vec(), lock, vec![]])
}

fn transaction(outputs: usize, witnesses: &[Vec<u8>]) -> Vec<u8> {
    let none = word(0).to_vec();
    let input = [&word(1)[..], &[0; 44]].concat();
    let raw = items(&[
        word(0).to_vec(),
        none.clone(),
        none,
        input,
        items(&vec![output(); outputs]),
        items(&vec![bytes(&[]); outputs]),
    ]);
    items(&[raw, items(witnesses)])
}

struct Case {
    shape: &'static str,
    count: usize,
    tx: Vec<u8>,
    calls: u32,
    best: f64,
}

fn case(shape: &'static str, count: usize, tx: Vec<u8>) -> Case {
    Case { shape, count, tx, calls: 1, best: f64::MAX }
}

fn time(tx: &[u8], calls: u32) -> f64 {
    let t = Instant::now();
    for _ in 0..calls {
        assert!(is_transaction(black_box(tx)));
    }
    t.elapsed().as_secs_f64()
}

fn cases() -> Vec<Case> {
    let sizes = [1_000, 10_000, 100_000];
    let mut cases = Vec::new();
    // An output takes 77 bytes, its data 4 and their offsets 8; a witness of 3 bytes takes 7 and its offset 4.
    for size in sizes {
        let n = (size - 112) / 89;
        cases.push(case("outputs", n, transaction(n, &[])));
    }
    for size in sizes {
        let n = (size - 112) / 11;
        cases.push(case("witnesses", n, transaction(0, &vec![bytes(&[1, 2, 3]); n])));
    }
    for size in sizes {
        cases.push(case("one witness", 1, transaction(0, &[bytes(&vec![7; size - 120])])));
    }
    cases
}

/// The best time of a call for each case.
fn measure() {
    let mut cases = cases();
    for c in &cases {
        assert!(is_transaction(&c.tx));
        assert!(!is_transaction(&c.tx[..c.tx.len() - 1]));
    }
    // Calls enough for a measurement of a millisecond, and 300 rounds in which the cases take turns.
    for c in &mut cases {
        while time(&c.tx, c.calls) < 1e-3 {
            c.calls *= 2;
        }
    }
    for _ in 0..300 {
        for c in &mut cases {
            c.best = c.best.min(time(&c.tx, c.calls) * 1e9 / c.calls as f64);
        }
    }
    println!("{:14} {:>8} {:>8} {:>14} {:>12}", "shape", "bytes", "items", "ns per call", "ns per byte");
    for c in &cases {
        println!("{:14} {:8} {:8} {:14.1} {:12.4}", c.shape, c.tx.len(), c.count, c.best, c.best / c.tx.len() as f64);
    }
}

/// The instructions of one call for each case: this program is run under valgrind, which counts those of `basinpantry_is_transaction` and what it calls.
fn count() {
    println!("{:14} {:>8} {:>8} {:>14} {:>12}", "shape", "bytes", "items", "instructions", "for a byte");
    for (i, c) in cases().iter().enumerate() {
        let output = Command::new("valgrind")
            .args(["--tool=callgrind", "--toggle-collect=basinpantry_is_transaction", "--callgrind-out-file=/dev/null"])
            .arg(std::env::current_exe().unwrap())
            .arg(i.to_string())
            .output()
            .expect("valgrind");
        let said = String::from_utf8_lossy(&output.stderr);
        assert!(output.status.success(), "{said}");
        let (_, number) = said.split_once("Collected : ").expect("no count");
        let n: u64 = number.split_whitespace().next().unwrap().parse().unwrap();
        println!("{:14} {:8} {:8} {n:14} {:12.4}", c.shape, c.tx.len(), c.count, n as f64 / c.tx.len() as f64);
    }
}

fn main() {
    match std::env::args().nth(1).as_deref() {
        None => measure(),
        Some("--instructions") => count(),
        Some(i) => assert!(is_transaction(&cases()[i.parse::<usize>().expect("a case's number")].tx)),
    }
}
