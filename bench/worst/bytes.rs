//! Bytes to lend: numbers that look random, hashes that look alike, transactions list by list.
use oracle::selftest;
use oracle::standins::molecule::{write_fixvec, write_table};
use oracle::standins::packed::Script;

/// The greatest size of a peer's transaction, without the 4 bytes that a block adds.
pub const MOST: usize = 133_116;
/// A list of four bytes that claims 2^32 - 1 items, or bytes.
pub const CLAIM: [u8; 4] = [0xff; 4];

/// The funding lock, our source lock, the token's type and the peer's lock, with so many bytes of args.
pub fn lock(args: usize) -> Script {
    selftest::script(0, args)
}
pub fn source(args: usize) -> Script {
    selftest::script(1, args)
}
pub fn token(args: usize) -> Script {
    selftest::script(2, args)
}
pub fn peers_lock() -> Script {
    selftest::script(3, 0)
}
/// The same script with another last byte.
pub fn nearly(script: &Script) -> Script {
    let mut bytes = script.as_slice().to_vec();
    *bytes.last_mut().expect("a byte") ^= 1;
    Script::read(&bytes).expect("a script")
}
pub fn output(capacity: u64, lock: &Script, udt: Option<&Script>) -> Vec<u8> {
    selftest::output(capacity, lock, udt).as_slice().to_vec()
}
/// Bytes behind their count.
pub fn counted(bytes: &[u8]) -> Vec<u8> {
    [&(bytes.len() as u32).to_le_bytes(), bytes].concat()
}
pub fn record(output: &[u8], data: &[u8]) -> Vec<u8> {
    write_table(&[output, &counted(data)])
}

/// A number that looks random (splitmix64).
pub fn mixed(n: u64) -> u64 {
    let n = n.wrapping_add(1).wrapping_mul(0x9e37_79b9_7f4a_7c15);
    let n = (n ^ n >> 30).wrapping_mul(0xbf58_476d_1ce4_e5b9);
    let n = (n ^ n >> 27).wrapping_mul(0x94d0_49bb_1331_11eb);
    n ^ n >> 31
}
pub fn shuffled<T: Clone>(items: &[T]) -> Vec<T> {
    let mut places: Vec<usize> = (0..items.len()).collect();
    places.sort_by_key(|place| mixed(*place as u64));
    places.iter().map(|place| items[*place].clone()).collect()
}
pub fn reversed<T: Clone>(items: &[T]) -> Vec<T> {
    items.iter().rev().cloned().collect()
}

/// How hashes differ.
#[derive(Clone, Copy, PartialEq)]
pub enum Hashes {
    Random,
    /// Random behind the first eight bytes, which are the same.
    FirstWord,
    /// In byte 31, and by the index.
    LastByte,
    /// In bytes 30 and 31.
    LastTwo,
    /// Not at all: only by the index.
    Same,
    /// In the first two words, whose sum is the same: they were made to share a slot (crates/out_points).
    OneSlot,
}

impl Hashes {
    pub fn name(self) -> &'static str {
        match self {
            Hashes::Random => "random hashes",
            Hashes::FirstWord => "one first word",
            Hashes::LastByte => "all but the last byte alike",
            Hashes::LastTwo => "all but bytes 30, 31 alike",
            Hashes::Same => "one hash",
            Hashes::OneSlot => "made to share a slot",
        }
    }
    /// Out point i: all of them are distinct.
    pub fn point(self, i: usize) -> [u8; 36] {
        let mut point = [7; 36];
        let random = |place: usize| mixed((4 * i + place) as u64).to_le_bytes();
        let from = match self {
            Hashes::Random => 0,
            Hashes::FirstWord => 1,
            _ => 4,
        };
        (from..4).for_each(|place| point[8 * place..8 * place + 8].copy_from_slice(&random(place)));
        let index = match self {
            Hashes::LastByte => i / 256,
            Hashes::Same => i,
            _ => 0,
        };
        point[32..].copy_from_slice(&(index as u32).to_le_bytes());
        match self {
            Hashes::LastByte => point[31] = i as u8,
            Hashes::LastTwo => point[30..32].copy_from_slice(&(i as u16).to_be_bytes()),
            Hashes::OneSlot => {
                point[..8].copy_from_slice(&random(0));
                point[8..16].copy_from_slice(&mixed(4 * i as u64).wrapping_neg().to_le_bytes());
            }
            _ => (),
        }
        point
    }
    pub fn points(self, of: std::ops::Range<usize>) -> Vec<[u8; 36]> {
        of.map(|i| self.point(i)).collect()
    }
    pub fn dep(self, i: usize) -> [u8; 37] {
        let mut dep = [1; 37];
        dep[..36].copy_from_slice(&self.point(i));
        dep
    }
    pub fn deps(self, of: std::ops::Range<usize>) -> Vec<[u8; 37]> {
        of.map(|i| self.dep(i)).collect()
    }
}

pub fn fixvec<const N: usize>(items: &[[u8; N]]) -> Vec<u8> {
    write_fixvec(items)
}

/// A transaction by its lists.
#[derive(Clone, Default)]
pub struct Tx {
    pub deps: Vec<[u8; 37]>,
    pub headers: Vec<[u8; 32]>,
    pub inputs: Vec<[u8; 44]>,
    pub outputs: Vec<Vec<u8>>,
    pub data: Vec<Vec<u8>>,
    pub witnesses: Vec<Vec<u8>>,
}

pub fn inputs(count: usize) -> Vec<[u8; 44]> {
    let input = |i| [&[0; 8][..], &Hashes::Random.point(i)].concat().try_into().expect("44 bytes");
    (0..count).map(input).collect()
}

impl Tx {
    /// One input, and a funding cell under a lock.
    pub fn small(lock: &Script) -> Tx {
        Tx { inputs: inputs(1), outputs: vec![output(100_0000_0000, lock, None)], data: vec![counted(&[])], ..Tx::default() }
    }
    pub fn bytes(&self) -> Vec<u8> {
        let raw = write_table(&[
            &[0; 4][..],
            &fixvec(&self.deps),
            &fixvec(&self.headers),
            &fixvec(&self.inputs),
            &write_table(&self.outputs),
            &write_table(&self.data),
        ]);
        write_table(&[&raw, &write_table(&self.witnesses)])
    }
    /// Filled up to a size by one more witness.
    pub fn filled(&self, size: usize) -> Vec<u8> {
        let with = |room| {
            let mut tx = self.clone();
            tx.witnesses.push(counted(&vec![0; room]));
            tx.bytes()
        };
        with(size - with(0).len())
    }
    /// How many items of so many bytes it has room for, with one more input and a last witness.
    pub fn room(&self, size: usize, item: usize) -> usize {
        (size - self.bytes().len() - 44 - 8) / item
    }
}
