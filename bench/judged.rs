//! An update as it is lent, judged here and by the original.
use crate::library;
use oracle::original::parsed::Parsed;
use oracle::original::update::{judge_as_requested, read_records, Lent, Verdict};

#[derive(Clone)]
pub struct Update {
    pub ours: Vec<u8>,
    pub peer: Vec<u8>,
    pub lock: Vec<u8>,
    pub udt: Vec<u8>,
    pub source: Vec<u8>,
    pub rate: u64,
    pub records: Vec<u8>,
}

impl Update {
    fn lent(&self) -> Lent<'_> {
        let Update { peer, lock, udt, source, rate, records, .. } = self;
        Lent { peer, lock, udt, source, rate: *rate, records: read_records(records) }
    }
    /// From raw bytes, by the original.
    pub fn read(&self) -> Parsed {
        let mut parsed = Parsed::read(&self.ours, self.lent()).expect("readable");
        parsed.lend();
        parsed
    }
    /// From raw bytes, by the library.
    pub fn call(&self, values: &mut [u64; 4]) -> u32 {
        let Update { ours, peer, lock, udt, source, rate, records } = self;
        library::update_for_peer(ours, peer, lock, udt, source, *rate, records, values)
    }
    /// Of the transactions and the records.
    pub fn bytes(&self) -> usize {
        self.ours.len() + self.peer.len() + self.records.len()
    }
    /// The answer's number, which is also the original's, with the same surpluses, or that of a request which changed the rules since.
    pub fn agrees(&self, name: &str) -> u32 {
        let mut values = [0; 4];
        let number = self.call(&mut values);
        let (expected, told) = match judge_as_requested(&self.ours, self.lent()) {
            Verdict::Accept(capacity, token) => (0, vec![capacity as u64, (capacity >> 64) as u64, token as u64, (token >> 64) as u64]),
            Verdict::Refuse(refusal) => (refusal.0, refusal.1),
            Verdict::Unreadable(number) | Verdict::Requested(_, number) => (number, vec![]),
            Verdict::Panic => panic!("{name}: the original panics"),
        };
        assert_eq!((number, &values[..told.len()]), (expected.into(), &told[..]), "{name}");
        number
    }
}
