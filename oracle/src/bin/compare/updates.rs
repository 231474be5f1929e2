//! Updates that a peer may send: good ones, and changed ones.
use crate::changes::change;
use crate::parts::*;
use crate::random::Rng;

/// An update in parts.
#[derive(Clone, Debug, Default)]
pub struct Plan {
    /// None: no transaction yet.
    pub ours: Option<Tx>,
    pub peer: Tx,
    pub lock: Vec<u8>,
    /// Empty: untyped.
    pub udt: Vec<u8>,
    pub source: Vec<u8>,
    pub rate: u64,
    pub records: Vec<Option<(Output, Vec<u8>)>>,
}

/// An update as it is lent.
#[derive(Clone, Debug, Default, PartialEq)]
pub struct Update {
    pub ours: Vec<u8>,
    pub peer: Vec<u8>,
    pub lock: Vec<u8>,
    pub udt: Vec<u8>,
    pub source: Vec<u8>,
    pub rate: u64,
    pub records: Vec<u8>,
}

impl Plan {
    pub fn write(&self) -> Update {
        let record = |r: &Option<(Output, Vec<u8>)>| r.as_ref().map_or(vec![], |(o, d)| list(&[o.write(), bytes(d)]));
        Update {
            ours: self.ours.as_ref().map_or(vec![], Tx::write),
            peer: self.peer.write(),
            lock: self.lock.clone(),
            udt: self.udt.clone(),
            source: self.source.clone(),
            rate: self.rate,
            records: list(&self.records.iter().map(record).collect::<Vec<_>>()),
        }
    }
    pub fn our_tx(&self) -> Tx {
        self.ours.clone().unwrap_or_default()
    }
}

/// The scripts of a channel, and the peer's.
#[derive(Clone, Debug)]
pub struct Channel {
    pub lock: Vec<u8>,
    pub udt: Vec<u8>,
    pub source: Vec<u8>,
    pub peer: Vec<u8>,
}
pub fn channel(rng: &mut Rng) -> Channel {
    let mut made = |code| {
        let args = [0, 0, 20, 20, 32, 1, 7];
        let n = rng.pick(&args);
        let args = rng.bytes(n);
        script(code, rng.below(3) as u8, &args)
    };
    let mut c = Channel { lock: made(1), udt: made(2), source: made(3), peer: made(4) };
    match rng.below(40) {
        0 => c.lock = c.source.clone(),
        1 => c.udt = c.lock.clone(),
        2 => c.peer = c.lock.clone(),
        _ => {}
    }
    if rng.once_in(2) {
        c.udt = vec![];
    }
    c
}

pub fn amount(n: u128) -> Vec<u8> {
    n.to_le_bytes().to_vec()
}
pub fn read_amount(d: &[u8]) -> Option<u128> {
    d.get(..16).map(|b| u128::from_le_bytes(b.try_into().unwrap()))
}

/// The transaction that is in force on our side: none, one without lists, one with some of them, one that both funded.
pub fn in_force(rng: &mut Rng, c: &Channel) -> Option<Tx> {
    let mut t = Tx::default();
    let kind = rng.below(9);
    if kind < 3 {
        return None;
    }
    if rng.once_in(30) {
        t.version = rng.word() as u32;
    }
    let least = (kind > 5) as usize;
    if kind != 3 && kind != 5 {
        let n = if rng.once_in(40) { rng.between(60, 80) } else { rng.between(least, 4) };
        t.inputs = (0..n).map(|i| input(i as u32, 0)).collect();
    }
    if kind > 4 {
        let tokens = rng.tokens();
        let data = if c.udt.is_empty() { vec![] } else { amount(tokens) };
        t.outputs.push(Output::new(rng.shannons(), &c.lock, &c.udt));
        t.data.push(data);
        for _ in 0..rng.below(4) {
            let typed = rng.once_in(3);
            let (capacity, lock) = (rng.shannons(), rng.pick(&[c.source.clone(), c.peer.clone()]));
            t.outputs.push(Output::new(capacity, &lock, if typed { &c.udt } else { &[] }));
            t.data.push(if typed { amount(rng.tokens()) } else { vec![] });
        }
    }
    if kind != 3 {
        t.deps = (0..rng.below(4)).map(|i| dep(i as u8, rng.below(2) as u8)).collect();
        let most = if rng.once_in(6) { 6 } else { 2 };
        t.headers = (0..rng.between(0, most)).map(|i| [i as u8; 32]).collect();
        t.witnesses = (0..rng.below(3)).map(|_| rng.bytes(3)).collect();
    }
    Some(t)
}

/// How many a peer adds: few as a rule, at times as many as it may or one more.
fn how_many(rng: &mut Rng, few: usize, most: usize) -> usize {
    match rng.below(40) {
        0 => most,
        1 => most + 1,
        _ => rng.between(0, few),
    }
}

fn required_fee(rate: u64, size: usize) -> u64 {
    rate.saturating_mul(size as u64) / 1000
}

/// What is left over of what the peer brings: all that is needed and a bit, just that, or one less.
fn over(rng: &mut Rng, needed: u128) -> u128 {
    match rng.below(12) {
        0 => needed.saturating_sub(1),
        1 => needed + 1,
        2 => rng.below(1000) as u128,
        3..=6 => needed,
        _ => needed.saturating_add(rng.below(100_000) as u128),
    }
}

/// An update that goes on from the transaction in force and is accepted as a rule.
pub fn good(rng: &mut Rng, c: &Channel, ours: Option<Tx>) -> Plan {
    let from = ours.clone().unwrap_or_default();
    let mut peer = from.clone();
    let typed = !c.udt.is_empty();
    let added = if rng.once_in(12) { 0 } else { how_many(rng, 4, 64).max(1) };
    for i in 0..added {
        let since = if rng.once_in(8) { rng.word() } else { 0 };
        peer.inputs.push(input(100 + if rng.once_in(10) { 0 } else { i as u32 }, since));
    }
    for i in 0..how_many(rng, 2, 8) {
        peer.deps.push(dep(50 + i as u8, 0));
    }
    if rng.once_in(4) {
        rng.shuffle(&mut peer.deps);
    }
    peer.headers.extend((0..how_many(rng, 2, 2)).map(|i| [200 + i as u8; 32]));
    peer.witnesses = (0..rng.below(4)).map(|i| vec![i as u8; 5 * i]).collect();
    // output 0 and what is added behind it
    let (mut growth, mut grown) = (rng.shannons(), rng.tokens());
    if added == 0 && !rng.once_in(4) {
        (growth, grown) = (0, 0);
    }
    match peer.outputs.first_mut() {
        None => {
            peer.outputs.push(Output::new(growth, &c.lock, &c.udt));
            peer.data.insert(0, if typed { amount(grown) } else { vec![] });
        }
        Some(o) => {
            growth = growth.min(u64::MAX - o.capacity);
            o.capacity += growth;
            if typed {
                let had = peer.data.first().and_then(|d| read_amount(d)).unwrap_or(0);
                grown = grown.min(u128::MAX - had);
                if let Some(d) = peer.data.first_mut() {
                    *d = amount(had + grown);
                }
            }
        }
    }
    let room = 3 - (peer.outputs.len() - from.outputs.len());
    let more = if added == 0 && !rng.once_in(4) { 0 } else { how_many(rng, room, room) };
    for _ in 0..more {
        let token = typed && rng.once_in(2);
        let capacity = rng.shannons();
        peer.outputs.push(Output::new(capacity, &c.peer, if token { &c.udt } else { &[] }));
        peer.data.push(if token { amount(rng.tokens()) } else { vec![0; rng.below(3)] });
    }
    while peer.data.len() < peer.outputs.len() {
        peer.data.push(vec![]);
    }
    let rate = match rng.below(12) {
        0 => rng.word(),
        1 => u64::MAX,
        2 => 0,
        _ => rng.between(0, 3000) as u64,
    };
    let mut plan = Plan { ours, peer, lock: c.lock.clone(), udt: c.udt.clone(), source: c.source.clone(), rate, records: vec![] };
    pay(rng, c, &mut plan, added);
    plan
}

/// The records: capacity and tokens for what is needed, over so many cells.
fn pay(rng: &mut Rng, c: &Channel, plan: &mut Plan, added: usize) {
    if added == 0 {
        return;
    }
    let from = plan.our_tx();
    let new = from.outputs.len().max(1);
    let first = |t: &Tx| t.outputs.first().map_or(0, |o| o.capacity) as u128;
    let outputs = plan.peer.outputs.iter().zip(&plan.peer.data).skip(new);
    let mut needed = first(&plan.peer).saturating_sub(first(&from));
    needed += outputs.clone().map(|(o, _)| o.capacity as u128).sum::<u128>();
    if from.inputs.is_empty() && from.outputs.is_empty() {
        needed += required_fee(plan.rate, plan.peer.write().len() + 4) as u128;
    }
    let of = |t: &Tx| t.data.first().and_then(|d| read_amount(d)).unwrap_or(0);
    let mut tokens = of(&plan.peer).saturating_sub(of(&from));
    for (o, d) in outputs {
        if o.udt == plan.udt {
            tokens = tokens.saturating_add(read_amount(d).unwrap_or(0));
        }
    }
    let capacities = parts_about(rng, needed, added, u64::MAX as u128);
    let token_cells = if plan.udt.is_empty() { 0 } else { rng.between(1, added) };
    let amounts = if token_cells > 0 { parts_about(rng, tokens, token_cells, u128::MAX) } else { vec![] };
    for (i, capacity) in capacities.into_iter().enumerate() {
        plan.records.push(Some(match amounts.get(i) {
            Some(n) => {
                let mut d = amount(*n);
                d.extend(vec![9; if rng.once_in(8) { rng.below(5) } else { 0 }]);
                (Output::new(capacity as u64, &c.peer, &plan.udt), d)
            }
            None => (Output::new(capacity as u64, &c.peer, &[]), vec![1; rng.below(3)]),
        }));
    }
    rng.shuffle(&mut plan.records);
}
/// A total about as large as is needed, in parts.
fn parts_about(rng: &mut Rng, needed: u128, n: usize, most: u128) -> Vec<u128> {
    let total = if needed == u128::MAX { needed } else { over(rng, needed) };
    rng.parts(total.min(most.saturating_mul(n as u128)), n, most)
}

/// A good update, or one with a change or several.
pub fn any_update(rng: &mut Rng) -> Plan {
    let c = channel(rng);
    let ours = in_force(rng, &c);
    let mut plan = good(rng, &c, ours);
    for _ in 0..rng.pick(&[0, 0, 0, 0, 1, 1, 1, 1, 2, 3]) {
        change(rng, &mut plan);
    }
    plan
}
