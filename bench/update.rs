//! Times `update_for_peer` beside the original's, in turns: see bench/update.
mod judged;
mod library;

use judged::Update;
use oracle::selftest::{data, output, script, tx, tx_with_headers};
use oracle::standins::molecule::write_table;
use oracle::standins::packed::{Bytes, CellOutput, Script};
use std::hint::black_box;
use std::time::Instant;

/// The greatest size of a peer's transaction, without the 4 bytes that a block adds.
const MOST: usize = 133_116;

/// One pass over all bytes of the transactions and records.
fn pass(update: &Update) -> u64 {
    [&update.ours, &update.peer, &update.records].iter().fold(0, |sum, b| sum.wrapping_add(summed(b)))
}

fn summed(bytes: &[u8]) -> u64 {
    let words = bytes.chunks_exact(8);
    let rest = words.remainder().iter().fold(0u64, |sum, x| sum.wrapping_add(*x as u64));
    words.fold(rest, |sum, w| sum.wrapping_add(u64::from_le_bytes(w.try_into().unwrap())))
}

/// The funding lock, our source lock, the token's type, and the peer's lock.
struct Scripts {
    lock: Script,
    source: Script,
    udt: Script,
    peer: Script,
}

fn scripts() -> Scripts {
    Scripts { lock: script(0, 20), source: script(1, 20), udt: script(2, 32), peer: script(3, 20) }
}
fn tokens(n: u128) -> Bytes {
    data(&n.to_le_bytes())
}
fn record(o: CellOutput, d: &[u8]) -> Vec<u8> {
    write_table(&[o.as_slice(), data(d).as_slice()])
}
/// The peer's transaction, filled up to the greatest size by a witness.
fn filled(make: impl Fn(&[Bytes]) -> Vec<u8>) -> Vec<u8> {
    let room = MOST - make(&[data(&[])]).len();
    make(&[data(&vec![0; room])])
}

fn updates() -> [(&'static str, Update); 6] {
    let s = scripts();
    let (lock, udt, source, peer) = (&s.lock, &s.udt, &s.source, &s.peer);
    let none = || data(b"");
    let placeholder = data(&[0; 85]);
    let update = |ours: Vec<u8>, peer: Vec<u8>, udt: &[u8], records: &[Vec<u8>]| Update {
        ours,
        peer,
        lock: lock.as_slice().to_vec(),
        udt: udt.to_vec(),
        source: source.as_slice().to_vec(),
        rate: 1_000,
        records: write_table(records),
    };
    let plain = output(100_0000_0000, peer, None);
    let from_none = |headers| {
        let outputs = [output(100_0000_0000, lock, None), output(61_0000_0000, peer, None)];
        let first = tx_with_headers(headers, 2, &outputs, &[none(), none()], 1, &[placeholder.clone()]);
        update(vec![], first, &[], &[record(plain.clone(), b""), record(plain.clone(), b"")])
    };
    let change = output(61_0000_0000, source, None);
    let kept = output(142_0000_0000, peer, Some(udt));
    let rest = output(61_0000_0000, peer, None);
    let brought = record(output(200_0000_0000, peer, Some(udt)), &60u128.to_le_bytes());
    let typed = update(
        tx(1, &[output(100_0000_0000, lock, Some(udt)), change.clone()], &[tokens(5), none()], 2, &[placeholder.clone()]),
        tx(
            3,
            &[output(200_0000_0000, lock, Some(udt)), change.clone(), kept.clone(), rest.clone()],
            &[tokens(50), none(), tokens(7), none()],
            3,
            &[placeholder.clone()],
        ),
        udt.as_slice(),
        &[brought.clone(), record(output(200_0000_0000, peer, None), b"")],
    );
    let three = [output(100_0000_0000, lock, Some(udt)), kept.clone(), rest.clone()];
    let opening = |witnesses: &[Bytes]| tx(64, &three, &[tokens(50), tokens(7), none()], 8, witnesses);
    let sixty_four = vec![brought; 64];
    let most_inputs = update(vec![], opening(&vec![placeholder.clone(); 64]), udt.as_slice(), &sixty_four);
    let witness = update(vec![], filled(opening), udt.as_slice(), &sixty_four);
    let ours = [output(100_0000_0000, lock, Some(udt)), change.clone(), change];
    let theirs = [ours.to_vec(), vec![kept, rest.clone(), rest]].concat();
    let entries = [tokens(5), none(), none(), tokens(7), none(), none()];
    let shared =
        update(tx(2_900, &ours, &entries[..3], 0, &[]), filled(|witnesses| tx(2_964, &theirs, &entries, 8, witnesses)), udt.as_slice(), &sixty_four);
    [
        ("504 bytes, untyped, from none", from_none(0)),
        ("568 bytes, with 2 header deps", from_none(2)),
        ("1,042 bytes, typed", typed),
        ("9,661 bytes, 64 added inputs", most_inputs),
        ("133,116 bytes by a witness", witness),
        ("133,116 bytes, 2,900 shared inputs", shared),
    ]
}

/// Updates of one added input in which the peer's transaction has about so many bytes: by shared inputs, by shared outputs, by witnesses of 85 bytes.
fn growing(bytes: usize) -> [(&'static str, Update); 3] {
    let s = scripts();
    let funding = output(100_0000_0000, &s.lock, None);
    let other = output(61_0000_0000, &s.source, None);
    let live = record(output(100_0000_0000, &s.peer, None), b"");
    let make = |inputs: usize, outputs: usize, witnesses: usize| {
        let outputs = [vec![funding.clone()], vec![other.clone(); outputs]].concat();
        tx(inputs, &outputs, &vec![data(b""); outputs.len()], 0, &vec![data(&[0; 85]); witnesses])
    };
    let update = |ours: Vec<u8>, peer: Vec<u8>| Update {
        ours,
        peer,
        lock: s.lock.as_slice().to_vec(),
        udt: vec![],
        source: s.source.as_slice().to_vec(),
        rate: 1_000,
        records: write_table(&[&live]),
    };
    // how many of one kind fit
    let count = |one: usize| (bytes - make(2, 0, 0).len()) / one;
    let (inputs, outputs, witnesses) = (count(44), count(other.as_slice().len() + 12), count(93));
    [
        ("shared inputs", update(make(inputs - 1, 0, 0), make(inputs, 0, 0))),
        ("shared outputs", update(make(1, outputs, 0), make(2, outputs, 0))),
        ("witnesses", update(make(1, 0, 0), make(2, 0, witnesses))),
    ]
}

/// The least nanoseconds of a call so far.
struct Clock(f64);

impl Clock {
    fn new() -> Clock {
        Clock(f64::MAX)
    }
    fn time(&mut self, calls: usize, mut call: impl FnMut()) {
        let start = Instant::now();
        (0..calls).for_each(|_| call());
        self.0 = self.0.min(start.elapsed().as_secs_f64() * 1e9 / calls as f64);
    }
}

fn beside_the_original(rounds: usize) {
    println!("{:<36}{:>8}{:>8}{:>8}{:>8}{:>7}{:>7}{:>7}", "ns for a call", "a", "b", "c", "d", "c/a", "c/b", "c/d");
    for (name, update) in updates() {
        assert_eq!(update.agrees(name), 0);
        let calls = (400_000 / update.bytes()).max(3);
        let (mut a, mut b, mut c, mut d) = (Clock::new(), Clock::new(), Clock::new(), Clock::new());
        for _ in 0..rounds {
            let parsed = update.read();
            a.time(calls, || assert!(black_box(&parsed).passes()));
            b.time(calls, || assert!(black_box(&update).read().passes()));
            c.time(calls, || assert!(black_box(&update).call(&mut [0; 4]) == 0));
            d.time(calls, || {
                black_box(pass(black_box(&update)));
            });
        }
        let (a, b, c, d) = (a.0, b.0, c.0, d.0);
        println!("{name:<36}{a:>8.0}{b:>8.0}{c:>8.0}{d:>8.0}{:>7.2}{:>7.2}{:>7.2}", c / a, c / b, c / d);
    }
}

fn for_each_byte(rounds: usize) {
    println!("{:<36}{:>8}{:>8}{:>8}", "ns for each byte that is lent", "bytes", "c", "c/bytes");
    let mut cases = vec![];
    for bytes in [10_000, 20_000, 40_000, 80_000, MOST] {
        cases.extend(growing(bytes).map(|(name, update)| (name, update, Clock::new())));
    }
    cases.iter().for_each(|(name, update, _)| assert_eq!(update.agrees(name), 0));
    for _ in 0..rounds {
        for (_, update, clock) in &mut cases {
            clock.time(400_000 / update.bytes(), || assert!(black_box(&*update).call(&mut [0; 4]) == 0));
        }
    }
    cases.sort_by_key(|(name, ..)| *name);
    for (name, update, clock) in cases {
        println!("{name:<36}{:>8}{:>8.0}{:>8.4}", update.bytes(), clock.0, clock.0 / update.bytes() as f64);
    }
}

fn main() {
    let rounds = std::env::args().nth(1).map_or(500, |n| n.parse().expect("a number of rounds"));
    beside_the_original(rounds);
    for_each_byte(rounds / 5);
}
