//! Cells of ours that are held for a funding or for the watchtower.
use crate::cells::{OutPoint, count_of, read_out_points, write_out_points};
use crate::ffi;
use crate::refusal::Refusal;

/// How many hold records a table has room for.
const PLACES: usize = 256;

/// How many bytes a record has: an out point (36), a kind (4) and a number (8).
const RECORD_BYTES: usize = 48;

/// How many bytes the table of holds has: a count of 4, and 256 places of 48.
pub const HELD_BYTES: usize = 4 + RECORD_BYTES * PLACES;

/// Room for a list of so many out points.
fn room(points: usize) -> Vec<u8> {
    vec![0; points.saturating_mul(36).saturating_add(4)]
}

/// Who takes cells.
///
/// ```
/// assert_ne!(basinpantry::Taker::Watchtower, basinpantry::Taker::Funding(0));
/// ```
#[derive(Clone, Copy, Debug, PartialEq, Eq, Hash)]
pub enum Taker {
    /// The watchtower, for 60,000 ms.
    Watchtower,
    /// The funding of this holder, until it is released. Holders are the caller's numbers.
    Funding(u64),
}

/// For whom a cell is held.
///
/// ```
/// assert_ne!(basinpantry::Owner::Funding(5), basinpantry::Owner::Watchtower { end: 5 });
/// ```
#[derive(Clone, Copy, Debug, PartialEq, Eq, Hash)]
pub enum Owner {
    /// For the funding of this holder.
    Funding(u64),
    /// For the watchtower.
    Watchtower {
        /// The time, in milliseconds, from which on the cell is free.
        end: u64,
    },
}

/// A hold record.
///
/// ```
/// use basinpantry::{HeldCells, Hold, OutPoint, Owner};
///
/// let mut held = HeldCells::new();
/// held.hold_for_watchtower(&[OutPoint::default()], 1_000).unwrap();
/// let hold = Hold { out_point: OutPoint::default(), owner: Owner::Watchtower { end: 1_801_000 } };
/// assert!(held.records().eq([hold]));
/// ```
#[derive(Clone, Copy, Debug, PartialEq, Eq, Hash)]
pub struct Hold {
    /// The cell.
    pub out_point: OutPoint,
    /// For whom it is held.
    pub owner: Owner,
}

impl Hold {
    /// The record of 48 bytes: kind 0 is a funding, any other the watchtower.
    fn from_bytes(s: &[u8]) -> Hold {
        let (out_point, rest) = s.split_at(36);
        let (kind, number) = rest.split_at(4);
        let number = u64::from_le_bytes(number.try_into().expect("8 bytes are left of 48"));
        let owner = if kind == [0; 4] { Owner::Funding(number) } else { Owner::Watchtower { end: number } };
        Hold { out_point: OutPoint::from_bytes(out_point).expect("36 bytes are an out point"), owner }
    }
}

/// What a `take` gives: each pick, in pick order, is in one of the two.
///
/// ```
/// assert!(basinpantry::Taken::default().taken.is_empty());
/// ```
#[derive(Clone, Debug, Default, PartialEq, Eq, Hash)]
pub struct Taken {
    /// The picks that were free and are now held.
    pub taken: Vec<OutPoint>,
    /// The picks that were held by anybody, spent, or taken earlier in the call.
    pub refused: Vec<OutPoint>,
}

/// The node's own cells that a transaction of its own spends before it is committed: at most 256 hold records.
///
/// Times are in milliseconds, on any clock that the caller keeps to. A refused call leaves the table as it was. Threads that share a table put it behind a
/// `Mutex`, and a look and the taking that follows it under one lock.
///
/// A list of 2^32 bytes or more is not read: each call that takes a list refuses one of 119,304,647 out points or more with 3.
///
/// Two tables are equal where the same records stand in them in the same order; bytes behind the last record mean nothing.
///
/// ```
/// use basinpantry::{H256, HeldCells, OutPoint, Taken, Taker};
///
/// let a = OutPoint { tx_hash: H256([1; 32]), index: 0 };
/// let b = OutPoint { tx_hash: H256([1; 32]), index: 1 };
/// let mut held = HeldCells::new();
/// let taken = held.take(&[a, a, b], &[], Taker::Funding(7), 0).unwrap();
/// assert_eq!(taken, Taken { taken: vec![a, b], refused: vec![a] });
/// assert_eq!(held.unavailable(&[a, b], &[], 1_000_000).unwrap(), [a, b]);
/// ```
#[derive(Clone)]
pub struct HeldCells {
    table: Box<[u8]>,
}

impl HeldCells {
    /// The empty table.
    ///
    /// ```
    /// assert!(basinpantry::HeldCells::new().lock_held(0).is_empty());
    /// ```
    pub fn new() -> HeldCells {
        HeldCells { table: vec![0; HELD_BYTES].into() }
    }

    /// The table of bytes that [`as_bytes`](HeldCells::as_bytes) gave, for instance from a file. Any content is safe; another length is no table.
    ///
    /// ```
    /// use basinpantry::HeldCells;
    ///
    /// assert!(HeldCells::from_bytes(HeldCells::new().as_bytes()) == Some(HeldCells::new()));
    /// assert!(HeldCells::from_bytes(&[]).is_none());
    /// ```
    pub fn from_bytes(table: &[u8]) -> Option<HeldCells> {
        (table.len() == HELD_BYTES).then(|| HeldCells { table: table.into() })
    }

    /// The table's bytes, to be kept.
    ///
    /// ```
    /// assert_eq!(basinpantry::HeldCells::new().as_bytes().len(), 12292);
    /// ```
    pub fn as_bytes(&self) -> &[u8] {
        &self.table
    }

    /// The records that stand in the table, in their order; watchtower records that have ended are among them until a call drops them. Nothing changes. They are
    /// read from the table's bytes in plain Rust.
    ///
    /// ```
    /// use basinpantry::{HeldCells, OutPoint, Owner};
    ///
    /// let mut held = HeldCells::new();
    /// held.hold_funding(7, &[OutPoint::default()]).unwrap();
    /// assert!(held.records().map(|hold| hold.owner).eq([Owner::Funding(7)]));
    /// ```
    pub fn records(&self) -> impl ExactSizeIterator<Item = Hold> + '_ {
        self.table[4..].chunks_exact(RECORD_BYTES).take(self.len()).map(Hold::from_bytes)
    }

    /// How many records stand in the table, the ended ones too.
    ///
    /// ```
    /// assert_eq!(basinpantry::HeldCells::new().len(), 0);
    /// ```
    pub fn len(&self) -> usize {
        // a count above the places counts as all of them
        count_of(&self.table).min(PLACES)
    }

    /// Whether no record stands in it.
    ///
    /// ```
    /// assert!(basinpantry::HeldCells::new().is_empty());
    /// ```
    pub fn is_empty(&self) -> bool {
        self.len() == 0
    }

    /// The funding inputs that a holder holds now, in place of the ones that it held before: an empty list releases the holder's cells. Refused: 3 (too
    /// long a list), 14 (over 256 records).
    ///
    /// ```
    /// use basinpantry::{H256, HeldCells, OutPoint, Refusal};
    ///
    /// let point = |index| OutPoint { tx_hash: H256([0; 32]), index };
    /// let mut held = HeldCells::new();
    /// held.hold_funding(7, &[point(1), point(2)]).unwrap();
    /// held.hold_funding(7, &[point(3)]).unwrap();
    /// assert_eq!(held.lock_held(0), [point(3)]);
    /// let many: Vec<OutPoint> = (0..256).map(point).collect();
    /// assert_eq!(held.hold_funding(8, &many), Err(Refusal::TooManyHolds));
    /// held.hold_funding(7, &[]).unwrap();
    /// assert!(held.lock_held(0).is_empty());
    /// ```
    pub fn hold_funding(&mut self, holder: u64, cells: &[OutPoint]) -> Result<(), Refusal> {
        ffi::hold_funding(&mut self.table, holder, &write_out_points(cells))
    }

    /// The cells of a transaction that the watchtower sent at this time are held for 1,800,000 ms. Refused: 3 (too long a list), 14 (over 256
    /// records, where ended ones count too).
    ///
    /// ```
    /// use basinpantry::{HeldCells, OutPoint};
    ///
    /// let cell = OutPoint::default();
    /// let mut held = HeldCells::new();
    /// held.hold_for_watchtower(&[cell], 1_000).unwrap();
    /// assert_eq!(held.unavailable(&[cell], &[], 1_800_999).unwrap(), [cell]);
    /// assert!(held.unavailable(&[cell], &[], 1_801_000).unwrap().is_empty());
    /// ```
    pub fn hold_for_watchtower(&mut self, cells: &[OutPoint], time: u64) -> Result<(), Refusal> {
        ffi::hold_for_watchtower(&mut self.table, &write_out_points(cells), time)
    }

    /// The cells of a transaction that the watchtower could not send are free again; one that it doesn't hold stays as it is. Refused: 3 (too long a list), and
    /// nothing else.
    ///
    /// ```
    /// use basinpantry::{HeldCells, OutPoint};
    ///
    /// let cell = OutPoint::default();
    /// let mut held = HeldCells::new();
    /// held.hold_for_watchtower(&[cell], 1_000).unwrap();
    /// held.release_for_watchtower(&[cell]).unwrap();
    /// assert!(held.lock_held(1_000).is_empty());
    /// ```
    pub fn release_for_watchtower(&mut self, cells: &[OutPoint]) -> Result<(), Refusal> {
        ffi::release_for_watchtower(&mut self.table, &write_out_points(cells))
    }

    /// The out points of every cell that is held at this time, in the order of the records. Watchtower records that have ended are dropped from the table, which
    /// is why it is lent as `&mut`; [`records`](HeldCells::records) only looks. Never refused.
    ///
    /// No lock is taken: the name is the original's, where the cells that are held are locked in a cell collector, so that it doesn't collect them.
    ///
    /// ```
    /// use basinpantry::{HeldCells, OutPoint};
    ///
    /// let mut held = HeldCells::new();
    /// held.hold_for_watchtower(&[OutPoint::default()], 0).unwrap();
    /// assert_eq!(held.lock_held(1_799_999), [OutPoint::default()]);
    /// assert!(held.lock_held(1_800_000).is_empty());
    /// ```
    #[doc(alias = "held")]
    pub fn lock_held(&mut self, time: u64) -> Vec<OutPoint> {
        // the table has its length, and there is room for every record
        let mut out = room(PLACES);
        ffi::unrefused(ffi::lock_held(&mut self.table, time, &mut out));
        read_out_points(&out)
    }

    /// The picks that are held at this time or spent, once each and in pick order. Nothing changes. Refused: 3 (too long a list), 13 (they are over
    /// 3,697, so that their list is over 133,116 bytes).
    ///
    /// ```
    /// use basinpantry::{HeldCells, OutPoint};
    ///
    /// let cell = OutPoint::default();
    /// assert_eq!(HeldCells::new().unavailable(&[cell, cell], &[cell], 0).unwrap(), [cell]);
    /// ```
    pub fn unavailable(&self, picked: &[OutPoint], spent: &[OutPoint], time: u64) -> Result<Vec<OutPoint>, Refusal> {
        let mut out = room(picked.len());
        ffi::unavailable(&self.table, &write_out_points(picked), &write_out_points(spent), time, &mut out)?;
        Ok(read_out_points(&out))
    }

    /// Takes the picks that are free: not held by anybody at this time, not spent, and not taken earlier in the call. Ended watchtower records are dropped
    /// first. Refused: 3 (too long a list), 13 (over 3,697 are taken, or are refused: a list over 133,116 bytes), 14 (over 256 records).
    ///
    /// ```
    /// use basinpantry::{HeldCells, OutPoint, Taker};
    ///
    /// let cell = OutPoint::default();
    /// let mut held = HeldCells::new();
    /// assert_eq!(held.take(&[cell], &[], Taker::Watchtower, 1_000).unwrap().taken, [cell]);
    /// assert_eq!(held.take(&[cell], &[], Taker::Funding(1), 60_999).unwrap().refused, [cell]);
    /// assert_eq!(held.take(&[cell], &[], Taker::Funding(1), 61_000).unwrap().taken, [cell]);
    /// ```
    pub fn take(&mut self, picked: &[OutPoint], spent: &[OutPoint], taker: Taker, time: u64) -> Result<Taken, Refusal> {
        let holder = match taker {
            Taker::Watchtower => None,
            Taker::Funding(holder) => Some(holder),
        };
        let (mut taken, mut refused) = (room(picked.len()), room(picked.len()));
        let (picked, spent) = (write_out_points(picked), write_out_points(spent));
        ffi::take(&mut self.table, &picked, &spent, holder, time, &mut taken, &mut refused)?;
        Ok(Taken { taken: read_out_points(&taken), refused: read_out_points(&refused) })
    }
}

impl Default for HeldCells {
    fn default() -> HeldCells {
        HeldCells::new()
    }
}

impl PartialEq for HeldCells {
    fn eq(&self, other: &HeldCells) -> bool {
        self.records().eq(other.records())
    }
}

impl Eq for HeldCells {}

impl std::fmt::Debug for HeldCells {
    fn fmt(&self, f: &mut std::fmt::Formatter<'_>) -> std::fmt::Result {
        f.write_str("HeldCells ")?;
        f.debug_list().entries(self.records()).finish()
    }
}
