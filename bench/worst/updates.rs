//! `update_for_peer`: cell deps in every order, and every list as long as it can be.
use super::bytes::*;
use super::chains;
use super::clock::{Clock, Deps, Row, Size};
use super::sorting;
use crate::judged::Update;
use oracle::standins::molecule::write_table;
use std::hint::black_box;
use std::rc::Rc;

const ENTRY: &str = "update_for_peer";
const SIZES: [usize; 3] = [MOST / 4, MOST / 2, MOST];

type Dep = [u8; 37];

pub fn rows() -> Vec<Row> {
    let mut rows = dep_rows();
    rows.extend(SHAPES.iter().map(|(name, shape)| Row::new(ENTRY, *name, SIZES, |size| beside(size, shape(size), shared_inputs(size)))));
    rows.push(Row::new(ENTRY, "over the size limit, witnesses of no bytes (4)", [MOST, 2 * MOST, 4 * MOST], |size| {
        beside(size, adding(&small(), witnesses(size, 0), size + 8), adding(&small(), witnesses(size, 85), size + 8))
    }));
    rows.push(Row::new(ENTRY, "ours with witnesses of no bytes", [MOST, 2 * MOST, 4 * MOST], |size| {
        beside(size, adding(&witnesses(size, 0), small(), 1_000), adding(&witnesses(size, 85), small(), 1_000))
    }));
    rows.push(Row::new(ENTRY, "added inputs, each lock ours but for a byte", [16, 32, 64], |n| beside(n, records(n, 1_000), records(n, 20))));
    rows.push(Row::new(ENTRY, "added inputs, each type the token's but for a byte", [16, 32, 64], |n| beside(n, tokens(n), records(n, 20))));
    rows
}

// ---- clocks

fn here(update: &Rc<Update>, answer: u32) -> Clock {
    let update = update.clone();
    Clock::steady(move || assert_eq!(black_box(&*update).call(&mut [0; 4]), answer))
}
/// The original from the same bytes. What it answers was compared before; where a request refuses the update since, it accepts.
fn there(update: &Rc<Update>) -> Clock {
    let (update, accepted) = (update.clone(), update.read().passes());
    Clock::steady(move || assert_eq!(black_box(&*update).read().passes(), accepted))
}
/// The original's judgement of what was read before.
fn parsed(update: Update, answer: u32) -> Clock {
    Clock::fresh(move || update.read(), move |parsed| assert_eq!(black_box(parsed).passes(), answer == 0))
}
fn beside(count: usize, worst: Update, honest: Update) -> Size {
    let (worst, honest) = (Rc::new(worst), Rc::new(honest));
    let answer = worst.agrees("the worst");
    let size = Size::new(count, worst.bytes(), here(&honest, honest.agrees("the honest")), here(&worst, answer));
    match answer {
        1..=3 => size,
        _ => size.beside(there(&worst)),
    }
}

// ---- updates

/// The peer adds an input to ours, and fills its transaction up to a size.
fn adding(ours: &Tx, mut peer: Tx, size: usize) -> Update {
    peer.inputs = inputs(peer.inputs.len() + 1);
    Update {
        ours: ours.bytes(),
        peer: peer.filled(size),
        lock: lock(0).as_slice().to_vec(),
        udt: vec![],
        source: source(0).as_slice().to_vec(),
        rate: 1_000,
        records: write_table(&[record(&output(100_0000_0000, &peers_lock(), None), &[])]),
    }
}
/// Both have the same lists.
fn sharing(tx: Tx, size: usize) -> Update {
    adding(&tx, tx.clone(), size)
}
fn small() -> Tx {
    Tx::small(&lock(0))
}

fn shared_inputs(size: usize) -> Update {
    sharing(Tx { inputs: inputs(small().room(size, 44)), ..small() }, size)
}
fn another_input(size: usize) -> Update {
    let mut update = shared_inputs(size);
    let last = Tx { inputs: inputs(small().room(size, 44)), ..small() }.inputs.pop().expect("an input");
    let at = update.ours.windows(44).position(|window| window == last).expect("the last of ours");
    update.ours[at + 43] ^= 1;
    update
}
fn headers(size: usize) -> Update {
    let header = |i| Hashes::LastTwo.point(i)[..32].try_into().expect("32 bytes");
    sharing(Tx { headers: (0..small().room(size, 32)).map(header).collect(), ..small() }, size)
}
fn added_headers(size: usize) -> Update {
    let headers = vec![[0; 32]; small().room(size, 32)];
    let update = adding(&small(), Tx { headers, ..small() }, size);
    assert!(update.read().passes(), "the original has no limit on header deps");
    update
}
fn least_outputs(size: usize) -> Update {
    let (mut tx, least) = (small(), output(1, &peers_lock(), None));
    let count = tx.room(size, least.len() + 12);
    tx.outputs.extend(vec![least; count]);
    tx.data.extend(vec![counted(&[]); count]);
    sharing(tx, size)
}
fn lone_data(size: usize) -> Update {
    let mut tx = small();
    tx.data.extend(vec![counted(&[]); tx.room(size, 8)]);
    sharing(tx, size)
}
/// As many witnesses of so many bytes as fit.
fn witnesses(size: usize, bytes: usize) -> Tx {
    Tx { witnesses: vec![counted(&vec![0; bytes]); small().room(size, 8 + bytes)], ..small() }
}
fn empty_witnesses(size: usize) -> Update {
    adding(&small(), witnesses(size, 0), size)
}
fn bad_last_witness(size: usize) -> Update {
    let mut tx = witnesses(size - 16, 0);
    tx.witnesses.push(CLAIM.to_vec());
    let mut update = adding(&small(), small(), 1_000);
    update.peer = tx.bytes();
    update
}
fn long_lock(size: usize) -> Update {
    let lock = lock(small().room(size, 1));
    Update { lock: lock.as_slice().to_vec(), ..sharing(Tx::small(&lock), size) }
}
fn too_many_records(size: usize) -> Update {
    Update { records: write_table(&vec![vec![]; size / 4]), ..adding(&small(), small(), 1_000) }
}

const SHAPES: &[(&str, fn(usize) -> Update)] = &[
    ("inputs, the last one another (5)", another_input),
    ("header deps, all but bytes 30, 31 alike", headers),
    ("header deps, all of them added (4)", added_headers),
    ("outputs of the least size, data of no bytes", least_outputs),
    ("data entries of no bytes, without outputs", lone_data),
    ("witnesses of no bytes", empty_witnesses),
    ("witnesses of no bytes, the last unreadable (2)", bad_last_witness),
    ("a funding lock as long as fits", long_lock),
    ("records that are not live, more than added inputs (3)", too_many_records),
];

/// So many added inputs, each of a cell whose lock is our source lock but for the last byte.
fn records(count: usize, args: usize) -> Update {
    let source = source(args);
    let cell = record(&output(1, &nearly(&source), None), &[]);
    Update { source: source.as_slice().to_vec(), ..with_records(count, cell) }
}
/// The same with the token's type for the source lock.
fn tokens(count: usize) -> Update {
    let token = token(1_000);
    let cell = record(&output(1, &peers_lock(), Some(&nearly(&token))), &0u128.to_le_bytes());
    let funding = Tx { outputs: vec![output(100_0000_0000, &lock(0), Some(&token))], data: vec![counted(&[0; 16])], ..small() };
    let peer = Tx { inputs: inputs(1 + count), ..funding.clone() };
    Update { ours: funding.bytes(), peer: peer.bytes(), udt: token.as_slice().to_vec(), ..with_records(count, cell) }
}
fn with_records(count: usize, cell: Vec<u8>) -> Update {
    let peer = Tx { inputs: inputs(1 + count), ..small() };
    Update { peer: peer.bytes(), records: write_table(&vec![cell; count]), ..adding(&small(), small(), 1_000) }
}

// ---- cell deps

/// Ours and the peer's, of n deps.
type Order = fn(Hashes, usize) -> (Vec<Dep>, Vec<Dep>);

fn of_all(hashes: Hashes, n: usize, order: impl Fn(&mut Vec<Dep>)) -> (Vec<Dep>, Vec<Dep>) {
    let ours = hashes.deps(0..n);
    let mut peer = ours.clone();
    order(&mut peer);
    (ours, peer)
}
/// The even ones rising, then the odd ones falling.
fn up_and_down(deps: &[Dep]) -> Vec<Dep> {
    let (even, odd): (Vec<_>, Vec<_>) = deps.iter().enumerate().partition(|(i, _)| i % 2 == 0);
    even.into_iter().chain(odd.into_iter().rev()).map(|(_, dep)| *dep).collect()
}
fn by_turns(hashes: Hashes, n: usize) -> (Vec<Dep>, Vec<Dep>) {
    ((0..n).map(|i| hashes.dep(i % 2)).collect(), (0..n).map(|i| hashes.dep(1 - i % 2)).collect())
}
fn copies_found_last(hashes: Hashes, n: usize) -> (Vec<Dep>, Vec<Dep>) {
    (vec![hashes.dep(0); n], [hashes.deps(1..n), hashes.deps(0..1)].concat())
}
fn copies_missing(hashes: Hashes, n: usize) -> (Vec<Dep>, Vec<Dep>) {
    (vec![hashes.dep(0); n], hashes.deps(1..n + 1))
}
/// They meet in the library's digest.
fn made_to_meet(hashes: Hashes, n: usize) -> (Vec<Dep>, Vec<Dep>) {
    let ours = chains::deps(hashes, n);
    (ours.clone(), reversed(&ours))
}
/// One more than are looked at in a chain, again and again.
fn some_made_to_meet(hashes: Hashes, n: usize) -> (Vec<Dep>, Vec<Dep>) {
    let ours: Vec<Dep> = chains::deps(hashes, 17).into_iter().cycle().take(n).collect();
    (ours.clone(), reversed(&ours))
}
fn one_fewer(hashes: Hashes, n: usize) -> (Vec<Dep>, Vec<Dep>) {
    let (mut ours, peer) = of_all(hashes, n, |peer| peer.rotate_left(1));
    ours.pop();
    (ours, peer)
}

const ORDERS: &[(&str, &[Hashes], Order)] = &[
    ("in our order", &[Hashes::Random, Hashes::Same], |hashes, n| of_all(hashes, n, |_| ())),
    ("reversed", &[Hashes::Random, Hashes::LastByte, Hashes::LastTwo, Hashes::Same], |hashes, n| of_all(hashes, n, |peer| peer.reverse())),
    ("rotated by one", &[Hashes::Random, Hashes::Same], |hashes, n| of_all(hashes, n, |peer| peer.rotate_left(1))),
    ("shuffled", &[Hashes::Random, Hashes::LastByte, Hashes::LastTwo, Hashes::Same], |hashes, n| of_all(hashes, n, |peer| *peer = shuffled(peer))),
    ("first and last swapped", &[Hashes::Random], |hashes, n| of_all(hashes, n, |peer| peer.swap(0, n - 1))),
    ("rising, then falling", &[Hashes::Same], |hashes, n| of_all(hashes, n, |peer| *peer = up_and_down(peer))),
    ("two of them by turns", &[Hashes::Same], by_turns),
    ("ours copies of the peer's last", &[Hashes::Random, Hashes::Same], copies_found_last),
    ("ours copies of none (5)", &[Hashes::Random, Hashes::Same], copies_missing),
    ("ours one fewer, rotated by one", &[Hashes::Random], one_fewer),
    ("made to meet, reversed", &[Hashes::Random, Hashes::Same], made_to_meet),
    ("seventeen made to meet, by turns", &[Hashes::Same], some_made_to_meet),
];

fn dep_rows() -> Vec<Row> {
    let mut rows = vec![];
    for (name, kinds, order) in ORDERS {
        for hashes in *kinds {
            rows.push(Row::new(ENTRY, format!("deps: {name}, {}", hashes.name()), SIZES, |size| dep_size(size, *hashes, *order)));
        }
    }
    rows
}
fn dep_size(size: usize, hashes: Hashes, order: Order) -> Size {
    let count = small().room(size, 37);
    let (ours, peer) = order(hashes, count);
    let with = |deps: &[Dep]| Tx { deps: deps.to_vec(), ..small() };
    let worst = adding(&with(&ours), with(&peer), size);
    let (answer, honest) = (worst.agrees("deps"), sharing(with(&hashes.deps(0..count)), size));
    let deps = Deps { sorted: sorting::clock(ours, peer, answer == 0), parsed: parsed(worst.clone(), answer) };
    Size { deps: Some(deps), ..beside(size, worst, honest) }
}
