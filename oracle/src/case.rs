//! The case file, and the judgement of one update by the original.
use crate::original::update::{self, InForce, Lent, Record, Verdict};
use crate::standins::{bytes::Bytes, packed::CellOutput};

pub const LIMIT: usize = 65_536;

#[derive(Clone, Debug, Default, PartialEq)]
pub struct Case {
    pub ours: Vec<u8>,
    pub peer: Vec<u8>,
    pub lock: Vec<u8>,
    pub type_: Vec<u8>,
    pub source: Vec<u8>,
    pub rate: u64,
    pub records: Vec<Option<(Vec<u8>, Vec<u8>)>>,
}
impl Case {
    pub fn parse(b: &[u8]) -> Option<Case> {
        (b.len() <= LIMIT).then(|| Self::parse_any(b)).flatten()
    }
    /// Without the check program's bound on the file.
    pub fn parse_any(b: &[u8]) -> Option<Case> {
        let mut items = vec![];
        let mut at = 0;
        while at < b.len() {
            let w = u32::from_le_bytes(b.get(at..at + 4)?.try_into().unwrap());
            let (kind, len) = (w >> 28, (w & 0x0fff_ffff) as usize);
            let end = at + 4 + len.next_multiple_of(4);
            let body = b.get(at + 4..end)?;
            if body[len..].iter().any(|x| *x != 0) {
                return None;
            }
            items.push((kind, &body[..len]));
            at = end;
        }
        let mut it = items.into_iter().peekable();
        let mut c = Case::default();
        let mut next = |k: u32| it.next_if(|i| i.0 == k).map(|i| i.1.to_vec());
        c.ours = next(1).unwrap_or_default();
        c.peer = next(2)?;
        c.lock = next(3)?;
        c.type_ = next(4).unwrap_or_default();
        c.source = next(5)?;
        c.rate = u64::from_le_bytes(next(6)?.try_into().ok()?);
        loop {
            if let Some(output) = next(7) {
                c.records.push(Some((output, next(8)?)));
            } else if let Some(none) = next(9) {
                if !none.is_empty() {
                    return None;
                }
                c.records.push(None);
            } else {
                break;
            }
        }
        it.next().is_none().then_some(c)
    }
    pub fn write(&self) -> Vec<u8> {
        let mut out = vec![];
        let mut item = |k: u32, b: &[u8]| {
            out.extend((k << 28 | b.len() as u32).to_le_bytes());
            out.extend(b);
            out.resize(out.len().next_multiple_of(4), 0);
        };
        if !self.ours.is_empty() {
            item(1, &self.ours);
        }
        item(2, &self.peer);
        item(3, &self.lock);
        if !self.type_.is_empty() {
            item(4, &self.type_);
        }
        item(5, &self.source);
        item(6, &self.rate.to_le_bytes());
        for r in &self.records {
            match r {
                Some((o, d)) => {
                    item(7, o);
                    item(8, d);
                }
                None => item(9, &[]),
            }
        }
        out
    }
    /// None where a record can't be read.
    fn read_records(&self) -> Option<Vec<Record>> {
        let read = |(o, d): &(Vec<u8>, Vec<u8>)| CellOutput::read(o).map(|o| (o, Bytes::from(d.clone())));
        self.records.iter().map(|r| r.as_ref().map_or(Some(None), |r| read(r).map(Some))).collect()
    }
    fn lent(&self) -> Lent<'_> {
        let Case { peer, lock, type_: udt, source, rate, .. } = self;
        Lent { peer, lock, udt, source, rate: *rate, records: self.read_records() }
    }
    /// The entry checks (1, 2, 3), then the original.
    pub fn judge(&self) -> Verdict {
        update::judge(&self.ours, self.lent())
    }
    /// The same by the rules as the requests left them.
    pub fn judge_as_requested(&self) -> Verdict {
        update::judge_as_requested(&self.ours, self.lent())
    }
    /// The same against a transaction in force, which the peer's replaces on acceptance (demand 3).
    pub fn judge_in(&self, in_force: &mut InForce) -> Verdict {
        in_force.update(self.lent())
    }
}
pub fn run(b: &[u8]) -> Verdict {
    match Case::parse(b) {
        Some(c) => c.judge(),
        None => Verdict::Unreadable(3),
    }
}
pub fn run_as_requested(b: &[u8]) -> Verdict {
    Case::parse(b).map_or(Verdict::Unreadable(3), |c| c.judge_as_requested())
}
