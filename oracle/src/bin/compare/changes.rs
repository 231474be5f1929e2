//! Changes after which a good update may be refused.
use crate::parts::*;
use crate::random::Rng;
use crate::updates::{amount, Plan};

/// A script that differs from this one in one thing.
fn near(rng: &mut Rng, s: &[u8]) -> Vec<u8> {
    if s.is_empty() {
        return script(2, 0, &[]);
    }
    let p = parts(s);
    let (mut code, mut hash_type, mut args) = (p[0].to_vec(), p[1].to_vec(), p[2][4..].to_vec());
    match rng.below(5) {
        0 => code[rng.below(32)] ^= 1,
        1 => hash_type[0] ^= 1,
        2 => args.push(0),
        _ if args.is_empty() => args.push(1),
        3 => {
            args.pop();
        }
        _ => {
            let i = rng.below(args.len());
            args[i] ^= 128;
        }
    }
    list(&[code, hash_type, bytes(&args)])
}

/// One item of a list, if it has any.
fn any<'a, T>(rng: &mut Rng, v: &'a mut [T]) -> Option<&'a mut T> {
    (!v.is_empty()).then(|| rng.below(v.len())).map(|i| &mut v[i])
}
fn remove_any<T>(rng: &mut Rng, v: &mut Vec<T>) {
    if !v.is_empty() {
        v.remove(rng.below(v.len()));
    }
}
fn flip(rng: &mut Rng, b: &mut [u8]) {
    if let Some(x) = any(rng, b) {
        *x ^= 1 << rng.below(8);
    }
}
/// Data that is a bit too short for an amount, or longer than one.
fn another_length(rng: &mut Rng, d: &mut Vec<u8>) {
    d.resize(rng.pick(&[0, 1, 8, 15, 15, 16, 17, 40]), 7);
}

/// A change after which the update may be refused.
pub fn change(rng: &mut Rng, p: &mut Plan) {
    let record = p.records.len();
    match rng.below(41) {
        0 => p.peer.version ^= 1 << rng.below(32),
        1 => remove_any(rng, &mut p.peer.deps),
        2 => any(rng, &mut p.peer.deps).into_iter().for_each(|d| d[36] ^= 1),
        3 => {
            let twice = p.peer.deps.first().copied();
            p.peer.deps.extend(twice);
        }
        4 => remove_any(rng, &mut p.peer.headers),
        5 => rng.shuffle(&mut p.peer.headers),
        6 => remove_any(rng, &mut p.peer.inputs),
        7 => {
            let i = rng.below(44);
            any(rng, &mut p.peer.inputs).into_iter().for_each(|x| x[i] ^= 1)
        }
        8 => remove_any(rng, &mut p.peer.outputs),
        9 => {
            let lock = near(rng, &p.lock);
            p.peer.outputs.iter_mut().take(1).for_each(|o| o.lock = lock.clone())
        }
        10 => {
            let udt = if rng.once_in(2) { vec![] } else { near(rng, &p.udt) };
            p.peer.outputs.iter_mut().take(1).for_each(|o| o.udt = udt.clone())
        }
        11 => any(rng, &mut p.peer.outputs).into_iter().for_each(|o| o.capacity = o.capacity.wrapping_sub(1)),
        12 => {
            let capacity = rng.shannons();
            any(rng, &mut p.peer.outputs).into_iter().for_each(|o| o.capacity = capacity)
        }
        13 => remove_any(rng, &mut p.peer.data),
        14 => {
            p.peer.data.pop();
        }
        15 | 16 => {
            let mut to = vec![];
            another_length(rng, &mut to);
            any(rng, &mut p.peer.data).into_iter().for_each(|d| d.resize(to.len(), 3))
        }
        17 => {
            let i = rng.below(p.peer.data.len().max(1));
            p.peer.data.get_mut(i).into_iter().for_each(|d| flip(rng, d))
        }
        18 => p.peer.data.clear(),
        19 => {
            let i = rng.below(record.max(1));
            p.records.get_mut(i).into_iter().for_each(|r| *r = None)
        }
        20 | 21 => {
            let source = p.source.clone();
            any(rng, &mut p.records).into_iter().flatten().for_each(|(o, _)| o.lock = source.clone())
        }
        22 => {
            let source = near(rng, &p.source);
            any(rng, &mut p.records).into_iter().flatten().for_each(|(o, _)| o.lock = source.clone())
        }
        23 => {
            let udt = near(rng, &p.udt);
            any(rng, &mut p.records).into_iter().flatten().for_each(|(o, _)| o.udt = udt.clone())
        }
        24 => {
            let i = rng.below(record.max(1));
            p.records.get_mut(i).into_iter().flatten().for_each(|(_, d)| another_length(rng, d))
        }
        25 => {
            let (capacity, less) = (rng.shannons(), rng.once_in(2));
            any(rng, &mut p.records).into_iter().flatten().for_each(|(o, _)| o.capacity = if less { o.capacity.saturating_sub(1) } else { capacity })
        }
        26 => {
            let tokens = rng.tokens();
            any(rng, &mut p.records).into_iter().flatten().for_each(|(_, d)| *d = amount(tokens))
        }
        27 => remove_any(rng, &mut p.records),
        28 => p.records.push(None),
        29 => p.rate = rng.pick(&[0, 1, 999, 1000, 1001, p.rate.saturating_add(1), u64::MAX, u64::MAX / 300]),
        30 => p.ours.iter_mut().for_each(|t| t.data.clear()),
        31 => {
            let mut data = vec![];
            another_length(rng, &mut data);
            p.ours.iter_mut().flat_map(|t| t.data.first_mut()).for_each(|d| *d = data.clone())
        }
        32 => {
            let udt = near(rng, &p.udt);
            p.ours.iter_mut().flat_map(|t| t.outputs.first_mut()).for_each(|o| o.udt = udt.clone())
        }
        33 => p.udt = if rng.once_in(3) { vec![] } else { near(rng, &p.udt) },
        34 => p.lock = near(rng, &p.lock),
        35 => {
            let (o, d) = (Output::new(rng.shannons(), &p.lock, &p.udt), amount(rng.tokens()));
            p.peer.outputs.push(o);
            p.peer.data.push(d);
        }
        36 => p.peer.data.push(vec![1; rng.below(20)]),
        37 => {
            // the tokens of two records just fill the range, or go one over
            let n = rng.tokens();
            let mut cells = p.records.iter_mut().flatten().filter(|(o, _)| !o.udt.is_empty());
            if let (Some(a), Some(b)) = (cells.next(), cells.next()) {
                (a.1, b.1) = (amount(n), amount((u128::MAX - n).saturating_add(rng.below(2) as u128)));
            }
        }
        38 => {
            let ours = p.ours.get_or_insert_with(Tx::default);
            ours.inputs.extend(p.peer.inputs.first().copied());
        }
        39 => {
            let n = rng.between(1, 4);
            p.peer.headers.extend((0..n).map(|i| [210 + i as u8; 32]));
        }
        _ => {
            // at the size limit, or one over; seldom, since it is long
            if rng.once_in(10) {
                p.peer.witnesses.push(vec![]);
                let n = p.peer.write().len();
                let room = (133_116 + rng.below(2)).saturating_sub(n);
                p.peer.witnesses.last_mut().unwrap().resize(room, 0);
            }
        }
    }
}
