//! Transactions, scripts and lists in parts, which are changed and then written; and bytes that are damaged.
use crate::random::Rng;
use oracle::standins::molecule::{self as m, write_fixvec, write_table};
use oracle::standins::packed::{List, Packed, Transaction};

/// A script's bytes.
pub fn script(code: u8, hash_type: u8, args: &[u8]) -> Vec<u8> {
    write_table(&[&[code; 32][..], &[hash_type], &bytes(args)])
}
/// Bytes behind their count.
pub fn bytes(b: &[u8]) -> Vec<u8> {
    [&(b.len() as u32).to_le_bytes(), b].concat()
}
/// A list of unsized items.
pub fn list<B: AsRef<[u8]>>(items: &[B]) -> Vec<u8> {
    if items.is_empty() {
        vec![4, 0, 0, 0]
    } else {
        write_table(items)
    }
}
/// A list of sized items.
pub fn sized_list<B: AsRef<[u8]>>(items: &[B]) -> Vec<u8> {
    write_fixvec(items)
}
/// The parts of a table or of a list of unsized items that was read.
pub fn parts(b: &[u8]) -> Vec<&[u8]> {
    (0..m::count(b)).map(|i| m::part(b, i)).map(|(start, end)| &b[start..end]).collect()
}

#[derive(Clone, Debug, Default, PartialEq)]
pub struct Output {
    pub capacity: u64,
    pub lock: Vec<u8>,
    /// Empty: none.
    pub udt: Vec<u8>,
}
impl Output {
    pub fn new(capacity: u64, lock: &[u8], udt: &[u8]) -> Self {
        Output { capacity, lock: lock.to_vec(), udt: udt.to_vec() }
    }
    pub fn write(&self) -> Vec<u8> {
        write_table(&[&self.capacity.to_le_bytes()[..], &self.lock, &self.udt])
    }
    pub fn read(b: &[u8]) -> Self {
        let p = parts(b);
        Output::new(u64::from_le_bytes(p[0].try_into().unwrap()), p[1], p[2])
    }
}

#[derive(Clone, Debug, Default, PartialEq)]
pub struct Tx {
    pub version: u32,
    pub deps: Vec<[u8; 37]>,
    pub headers: Vec<[u8; 32]>,
    pub inputs: Vec<[u8; 44]>,
    pub outputs: Vec<Output>,
    pub data: Vec<Vec<u8>>,
    pub witnesses: Vec<Vec<u8>>,
}
impl Tx {
    pub fn write(&self) -> Vec<u8> {
        let outputs: Vec<_> = self.outputs.iter().map(Output::write).collect();
        let data: Vec<_> = self.data.iter().map(|d| bytes(d)).collect();
        let witnesses: Vec<_> = self.witnesses.iter().map(|w| bytes(w)).collect();
        let raw = write_table(&[
            self.version.to_le_bytes().to_vec(),
            sized_list(&self.deps),
            sized_list(&self.headers),
            sized_list(&self.inputs),
            list(&outputs),
            list(&data),
        ]);
        write_table(&[raw, list(&witnesses)])
    }
    pub fn read(b: &[u8]) -> Option<Tx> {
        fn sized<P: Packed, const N: usize>(l: List<P>) -> Vec<[u8; N]> {
            l.into_iter().map(|p| p.raw()[..].try_into().unwrap()).collect()
        }
        let t = Transaction::read(b)?;
        let raw = t.raw();
        Some(Tx {
            version: raw.version(),
            deps: sized(raw.cell_deps()),
            headers: sized(raw.header_deps()),
            inputs: sized(raw.inputs()),
            outputs: raw.outputs().into_iter().map(|o| Output::read(o.as_slice())).collect(),
            data: raw.outputs_data().into_iter().map(|d| d.raw_data().to_vec()).collect(),
            witnesses: t.witnesses().into_iter().map(|w| w.raw_data().to_vec()).collect(),
        })
    }
}

pub fn dep(n: u8, dep_type: u8) -> [u8; 37] {
    let mut d = [n; 37];
    d[36] = dep_type;
    d
}
pub fn point(n: u32) -> [u8; 36] {
    let mut p = [(n % 251) as u8; 36];
    p[..4].copy_from_slice(&n.to_le_bytes());
    p[32..].copy_from_slice(&(n % 3).to_le_bytes());
    p
}
pub fn input(n: u32, since: u64) -> [u8; 44] {
    let mut i = [0; 44];
    i[..8].copy_from_slice(&since.to_le_bytes());
    i[8..].copy_from_slice(&point(n));
    i
}

/// The bytes with one thing wrong somewhere: a bit, a byte, a length or an offset, more or fewer bytes.
pub fn damaged(rng: &mut Rng, b: &[u8]) -> Vec<u8> {
    let mut b = b.to_vec();
    if b.is_empty() {
        let n = rng.between(1, 8);
        return rng.bytes(n);
    }
    // heads and offsets stand more to the front
    let at = if rng.once_in(2) { rng.below(b.len().min(80)) } else { rng.below(b.len()) };
    match rng.below(9) {
        0 => b[at] ^= 1 << rng.below(8),
        1 => b[at] = rng.word() as u8,
        2 => b.truncate(at),
        3 => b.truncate(b.len() - rng.between(1, b.len().min(8))),
        4 => {
            let n = rng.between(1, 8);
            let more = if rng.once_in(2) { vec![0; n] } else { rng.bytes(n) };
            b.extend(more);
        }
        5 => {
            b.remove(at);
        }
        6 => b.insert(at, rng.word() as u8),
        7 => {
            // an offset and the bytes that it speaks of, moved together
            let n = rng.pick(&[1, 4, 8, 32]);
            let more = vec![0; n];
            b.splice(at..at, more);
            step_word(&mut b, 0, n as i64);
        }
        _ => {
            let steps = [1, -1, 4, -4, 8, -8, 36, 1 << 16, 1 << 31, -(1 << 31), 3, -3];
            let step = rng.pick(&steps);
            step_word(&mut b, at / 4 * 4, step);
        }
    }
    b
}
/// Adds to the 32-bit word at a place, if there is one.
fn step_word(b: &mut [u8], at: usize, step: i64) {
    if let Some(w) = b.get_mut(at..at + 4) {
        let n = u32::from_le_bytes((&*w).try_into().unwrap()) as i64 + step;
        w.copy_from_slice(&(n as u32).to_le_bytes());
    }
}

/// A list with one item less, for each item.
pub fn one_less<T: Clone>(v: &[T]) -> impl Iterator<Item = Vec<T>> + '_ {
    (0..v.len()).map(|i| {
        let mut less = v.to_vec();
        less.remove(i);
        less
    })
}

/// Transactions with something less than this one has.
pub fn smaller_tx(t: &Tx) -> Vec<Tx> {
    let mut out = vec![];
    out.extend(one_less(&t.witnesses).map(|witnesses| Tx { witnesses, ..t.clone() }));
    out.extend(one_less(&t.headers).map(|headers| Tx { headers, ..t.clone() }));
    out.extend(one_less(&t.deps).map(|deps| Tx { deps, ..t.clone() }));
    out.extend(one_less(&t.inputs).map(|inputs| Tx { inputs, ..t.clone() }));
    out.extend(one_less(&t.outputs).map(|outputs| Tx { outputs, ..t.clone() }));
    out.extend(one_less(&t.data).map(|data| Tx { data, ..t.clone() }));
    for (i, d) in t.data.iter().enumerate().filter(|(_, d)| !d.is_empty()) {
        let mut data = t.data.clone();
        data[i] = d[..d.len() - 1].to_vec();
        out.push(Tx { data, ..t.clone() });
    }
    out
}
/// Strings with something less: of a transaction its parts, of anything else its bytes.
pub fn smaller_bytes(b: &[u8]) -> Vec<Vec<u8>> {
    if let Some(t) = Tx::read(b) {
        return smaller_tx(&t).iter().map(Tx::write).collect();
    }
    let halves = [&b[..b.len() / 2], &b[b.len() / 2..]];
    let cut = halves.into_iter().filter(|h| h.len() < b.len()).map(<[u8]>::to_vec);
    cut.chain(one_less(b).take(400)).collect()
}
