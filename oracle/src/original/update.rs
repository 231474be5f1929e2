//! A peer's update judged by the original.
use super::{panics, Refusal};
use crate::ckb::funding::funding_tx::{probe, FundingTx};
use crate::standins::{block_on, bytes::Bytes, chain::DESK, molecule, packed::*, view::TransactionView};

#[derive(Clone, Debug, PartialEq)]
pub enum Verdict {
    /// Accepted by the original. The capacity and token surplus are computed beside it, since it returns none.
    Accept(u128, u128),
    /// Decided by the original.
    Refuse(Refusal),
    /// 1, 2 or 3: decided here, since the original is handed values that were read.
    Unreadable(u8),
    /// The original panics since our output 0 has no data in a typed update; the rules say 5 here. A panic for another cause is no verdict.
    Panic,
    /// Decided by a request that changed the rules since, of which the original knows nothing: which updates it concerns, and the number.
    Requested(&'static str, u8),
}
impl std::fmt::Display for Verdict {
    fn fmt(&self, f: &mut std::fmt::Formatter<'_>) -> std::fmt::Result {
        match self {
            Verdict::Accept(c, _) => write!(f, "0 {c:032x}"),
            Verdict::Refuse(r) => r.fmt(f),
            Verdict::Unreadable(n) => n.fmt(f),
            Verdict::Panic => f.write_str("5"),
            Verdict::Requested(_, n) => n.fmt(f),
        }
    }
}

/// The request W6, and the updates that a comparison with the original leaves out for it: all of them are refused with 4, unless a transaction or a script can't be read.
pub const HEADER_DEPS: &str = "W6: three or more added header deps, 4";

/// A cell that an added input spends, as it is lent; none where it is not live.
pub type Record = Option<(CellOutput, Bytes)>;

/// What an update brings, as it is lent.
pub struct Lent<'a> {
    pub peer: &'a [u8],
    pub lock: &'a [u8],
    /// The expected type; empty: none.
    pub udt: &'a [u8],
    pub source: &'a [u8],
    pub rate: u64,
    /// None where the records can't be read.
    pub records: Option<Vec<Record>>,
}

/// The records of a lent list, if it can be read.
pub fn read_records(list: &[u8]) -> Option<Vec<Record>> {
    molecule::readable(&molecule::RECORDS, list).then(|| {
        let record = |b: &[u8]| {
            let part = |i| {
                let (start, end) = molecule::part(b, i);
                &b[start..end]
            };
            (!b.is_empty()).then(|| (CellOutput::read(part(0)).unwrap(), part(1)[4..].to_vec().into()))
        };
        let item = |i| molecule::part(list, i);
        (0..molecule::count(list)).map(item).map(|(start, end)| record(&list[start..end])).collect()
    })
}

/// A transaction in force.
#[derive(Clone, Default)]
pub struct InForce(FundingTx);

impl InForce {
    /// From bytes, empty for none; none where they can't be read.
    pub fn read(ours: &[u8]) -> Option<InForce> {
        match ours {
            [] => Some(InForce(FundingTx::new())),
            _ => Transaction::read(ours).map(|t| InForce(t.into())),
        }
    }
    /// Its bytes, empty for none.
    pub fn bytes(&self) -> Vec<u8> {
        self.0.as_ref().map_or(vec![], |t| t.data().as_slice().to_vec())
    }
    pub fn view(&self) -> TransactionView {
        self.0.as_ref().cloned().unwrap_or_else(|| Transaction::default().into_view())
    }
    /// Judges an update against this transaction, which the peer's replaces on acceptance, by the original's rules.
    pub fn update(&mut self, lent: Lent) -> Verdict {
        match Read::of(&lent) {
            Ok(read) => self.update_read(read, lent),
            Err(unreadable) => unreadable,
        }
    }
    /// The same by the rules as the requests left them. Where one of them decides, the original is not asked.
    pub fn update_as_requested(&mut self, lent: Lent) -> Verdict {
        match Read::of(&lent) {
            Ok(read) if read.peer.header_deps().len() > self.view().header_deps().len() + 2 => Verdict::Requested(HEADER_DEPS, 4),
            Ok(read) => self.update_read(read, lent),
            Err(unreadable) => unreadable,
        }
    }
    fn update_read(&mut self, Read { peer, lock, udt, source }: Read, lent: Lent) -> Verdict {
        let (before, ours) = (self.0.clone(), self.view());
        let added = peer.inputs().len().saturating_sub(ours.inputs().len());
        let records = lent.records.filter(|r| r.len() == added);
        DESK.with_borrow_mut(|d| {
            d.live = records.clone().unwrap_or_default();
            d.asked = 0;
            d.opened = false;
        });
        let without_data = udt.is_some() && ours.output(0).is_some() && ours.outputs_data().is_empty();
        let context = probe::context(lock, udt, source, vec![]);
        let result = panics::caught(|| block_on(self.0.update_for_peer(peer.clone(), context, lent.rate)));
        // The original asks for live cells when all checks before them have passed: there the records are looked at.
        let records = match records {
            None if DESK.with_borrow(|d| d.opened) => {
                self.0 = before;
                return Verdict::Unreadable(3);
            }
            None => vec![],
            Some(records) => records,
        };
        let bytes = |f: &FundingTx| f.as_ref().map(|t| t.data());
        let expected = if let Ok(Ok(())) = result { Some(peer.data()) } else { bytes(&before) };
        assert!(bytes(&self.0) == expected, "the transaction in force");
        match result {
            Ok(Ok(())) => {
                let cells: Vec<_> = records.into_iter().flatten().map(|(o, d)| probe::cell(o, d)).collect();
                let (c, t) = probe::surplus(&ours, &peer, &cells);
                Verdict::Accept(c, t)
            }
            Ok(Err(e)) => Verdict::Refuse(Refusal::from(&e)),
            Err(cause) => {
                assert!(cause == panics::Cause::OutputWithoutData && without_data, "{cause:?}, and the input has another");
                Verdict::Panic
            }
        }
    }
}

/// What is read before the original is asked.
struct Read {
    peer: TransactionView,
    lock: Script,
    udt: Option<Script>,
    source: Script,
}
impl Read {
    fn of(lent: &Lent) -> Result<Read, Verdict> {
        let peer = Transaction::read(lent.peer).ok_or(Verdict::Unreadable(2))?.into_view();
        let script = |b| Script::read(b).ok_or(Verdict::Unreadable(3));
        let udt = (!lent.udt.is_empty()).then_some(lent.udt).map(script).transpose()?;
        Ok(Read { peer, lock: script(lent.lock)?, udt, source: script(lent.source)? })
    }
}

/// The entry's first check, then the update, by the original's rules.
pub fn judge(ours: &[u8], lent: Lent) -> Verdict {
    InForce::read(ours).map_or(Verdict::Unreadable(1), |mut in_force| in_force.update(lent))
}

/// The same by the rules as the requests left them.
pub fn judge_as_requested(ours: &[u8], lent: Lent) -> Verdict {
    InForce::read(ours).map_or(Verdict::Unreadable(1), |mut in_force| in_force.update_as_requested(lent))
}
