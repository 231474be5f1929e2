//! Cells that transactions of ours spend, and that are not to be collected for others.
use crate::cells::{OutPoint, count_of, read_out_points};
use crate::names::H256;
use crate::refusal::Refusal;
use crate::{ffi, molecule};

/// How many transactions and out points a map has room for.
const TRANSACTIONS: usize = 64;
const OUT_POINTS: usize = 512;

/// How many bytes the map has: a count of 4, 48 for each transaction, 36 for each out point.
pub const EXCLUSIONS_BYTES: usize = 4 + 48 * TRANSACTIONS + 36 * OUT_POINTS;

/// An entry of the exclusion map: a transaction of ours.
///
/// ```
/// use basinpantry::{H256, LiveCellsExclusion, LiveCellsExclusionMap, Transaction};
///
/// let mut map = LiveCellsExclusionMap::new();
/// map.add(&H256([9; 32]), Some(&Transaction::default().to_bytes())).unwrap();
/// map.commit(&H256([9; 32]), 100);
/// assert!(map.entries().eq([LiveCellsExclusion { tx_hash: H256([9; 32]), committed_block_number: Some(100), input_out_points: vec![] }]));
/// ```
#[derive(Clone, Debug, PartialEq, Eq, Hash)]
pub struct LiveCellsExclusion {
    /// The hash of the transaction.
    pub tx_hash: H256,
    /// The block that it was committed in; none while it is pending.
    pub committed_block_number: Option<u64>,
    /// The cells that it spends.
    pub input_out_points: Vec<OutPoint>,
}

/// The cells that transactions of ours spend, by the hash of the transaction: at most 64 transactions and 512 out points. A transaction is pending until it
/// is committed, and dropped 13 blocks after that.
///
/// A refused call leaves the map as it was. Only calls that enter a transaction are ever refused.
///
/// Two maps are equal where the same entries stand in them in the same order; bytes behind the last entry mean nothing.
///
/// ```
/// use basinpantry::{CellInput, H256, LiveCellsExclusionMap, OutPoint, Transaction};
///
/// let cell = OutPoint { tx_hash: H256([1; 32]), index: 0 };
/// let tx = Transaction { inputs: vec![CellInput { since: 0, previous_output: cell }], ..Transaction::default() };
/// let mut map = LiveCellsExclusionMap::new();
/// map.add(&H256([9; 32]), Some(&tx.to_bytes())).unwrap();
/// map.commit(&H256([9; 32]), 100);
/// map.truncate(112);
/// assert_eq!(map.apply(), [cell]);
/// map.truncate(113);
/// assert!(map.apply().is_empty());
/// ```
#[derive(Clone)]
pub struct LiveCellsExclusionMap {
    table: Box<[u8]>,
}

impl LiveCellsExclusionMap {
    /// The empty map.
    ///
    /// ```
    /// assert!(basinpantry::LiveCellsExclusionMap::new().apply().is_empty());
    /// ```
    pub fn new() -> LiveCellsExclusionMap {
        LiveCellsExclusionMap { table: vec![0; EXCLUSIONS_BYTES].into() }
    }

    /// The map of bytes that [`as_bytes`](LiveCellsExclusionMap::as_bytes) gave, for instance from a file. Bytes of another length or in another form, as from a
    /// damaged file, are no map.
    ///
    /// ```
    /// use basinpantry::LiveCellsExclusionMap;
    ///
    /// let map = LiveCellsExclusionMap::new();
    /// assert!(LiveCellsExclusionMap::from_bytes(map.as_bytes()) == Some(map));
    /// assert!(LiveCellsExclusionMap::from_bytes(&[]).is_none());
    /// assert!(LiveCellsExclusionMap::from_bytes(&[0xff; 21508]).is_none());
    /// ```
    pub fn from_bytes(table: &[u8]) -> Option<LiveCellsExclusionMap> {
        let map = LiveCellsExclusionMap { table: table.into() };
        map.listed().is_ok().then_some(map)
    }

    /// The map's bytes, to be kept.
    ///
    /// ```
    /// assert_eq!(basinpantry::LiveCellsExclusionMap::new().as_bytes().len(), 21508);
    /// ```
    pub fn as_bytes(&self) -> &[u8] {
        &self.table
    }

    /// The entries that stand in the map, in their order. Nothing changes. They are read from the map's bytes in plain Rust.
    ///
    /// ```
    /// use basinpantry::{H256, LiveCellsExclusionMap, Transaction};
    ///
    /// let mut map = LiveCellsExclusionMap::new();
    /// map.add(&H256([9; 32]), Some(&Transaction::default().to_bytes())).unwrap();
    /// assert!(map.entries().map(|entry| entry.tx_hash).eq([H256([9; 32])]));
    /// ```
    pub fn entries(&self) -> impl ExactSizeIterator<Item = LiveCellsExclusion> + '_ {
        let mut rest = &self.table[4..];
        let mut next = move |n: usize| {
            let (part, behind) = rest.split_at(n);
            rest = behind;
            part
        };
        // what is kept was read by the library as a map, so that each part is there
        (0..self.len()).map(move |_| {
            let tx_hash = H256::from_bytes(next(32)).expect("32 bytes");
            let is_committed = next(4) != [0; 4];
            let block = u64::from_le_bytes(next(8).try_into().expect("8 bytes"));
            let count = count_of(next(4));
            let points = next(36 * count).chunks_exact(36);
            let input_out_points = points.map(|s| OutPoint::from_bytes(s).expect("36 bytes are an out point")).collect();
            LiveCellsExclusion { tx_hash, committed_block_number: is_committed.then_some(block), input_out_points }
        })
    }

    /// How many transactions are entered.
    ///
    /// ```
    /// assert_eq!(basinpantry::LiveCellsExclusionMap::new().len(), 0);
    /// ```
    pub fn len(&self) -> usize {
        count_of(&self.table)
    }

    /// Whether no transaction is entered.
    ///
    /// ```
    /// assert!(basinpantry::LiveCellsExclusionMap::new().is_empty());
    /// ```
    pub fn is_empty(&self) -> bool {
        self.len() == 0
    }

    /// Enters the inputs of a transaction under its hash, in place of what was entered under it. No transaction enters nothing. Refused: 1 (the
    /// bytes are no transaction), 15 (over 64 transactions or 512 out points).
    ///
    /// ```
    /// use basinpantry::{H256, LiveCellsExclusionMap, Refusal};
    ///
    /// let mut map = LiveCellsExclusionMap::new();
    /// assert_eq!(map.add(&H256([9; 32]), Some(b"no transaction")), Err(Refusal::OurTransactionUnreadable));
    /// assert_eq!(map.add(&H256([9; 32]), Some(&[])), Err(Refusal::OurTransactionUnreadable));
    /// assert_eq!(map.add(&H256([9; 32]), None), Ok(()));
    /// ```
    pub fn add(&mut self, hash: &H256, tx: Option<&[u8]>) -> Result<(), Refusal> {
        ffi::exclusions_add(&mut self.table, &hash.0, molecule::option(tx))
    }

    /// The transaction of this hash was committed in this block. An unknown hash changes nothing. Never refused.
    ///
    /// ```
    /// let mut map = basinpantry::LiveCellsExclusionMap::new();
    /// map.commit(&[9; 32].into(), 100);
    /// assert!(map == basinpantry::LiveCellsExclusionMap::new());
    /// ```
    pub fn commit(&mut self, hash: &H256, block: u64) {
        ffi::unrefused(ffi::exclusions_commit(&mut self.table, &hash.0, block));
    }

    /// Removes the transaction of this hash. An unknown hash changes nothing. Never refused.
    ///
    /// ```
    /// use basinpantry::{CellInput, H256, LiveCellsExclusionMap, Transaction};
    ///
    /// let tx = Transaction { inputs: vec![CellInput::default()], ..Transaction::default() };
    /// let mut map = LiveCellsExclusionMap::new();
    /// map.add(&H256([9; 32]), Some(&tx.to_bytes())).unwrap();
    /// map.remove(&H256([9; 32]));
    /// assert!(map.apply().is_empty());
    /// ```
    pub fn remove(&mut self, hash: &H256) {
        ffi::unrefused(ffi::exclusions_remove(&mut self.table, &hash.0));
    }

    /// Moves an entry to the transaction that replaces it (none: it is only removed). An unknown old hash changes nothing. Refused: 1 and 15, as
    /// [`add`](LiveCellsExclusionMap::add) is; 1 also where the old hash is unknown.
    ///
    /// ```
    /// use basinpantry::{CellInput, H256, LiveCellsExclusionMap, OutPoint, Transaction};
    ///
    /// let spends = |index| {
    ///     let input = CellInput { since: 0, previous_output: OutPoint { tx_hash: H256([1; 32]), index } };
    ///     Transaction { inputs: vec![input], ..Transaction::default() }.to_bytes()
    /// };
    /// let mut map = LiveCellsExclusionMap::new();
    /// map.add(&H256([8; 32]), Some(&spends(0))).unwrap();
    /// map.migrate_funding_tx(&H256([8; 32]), &H256([9; 32]), Some(&spends(1))).unwrap();
    /// assert_eq!(map.apply(), [OutPoint { tx_hash: H256([1; 32]), index: 1 }]);
    /// ```
    pub fn migrate_funding_tx(&mut self, old_hash: &H256, new_hash: &H256, tx: Option<&[u8]>) -> Result<(), Refusal> {
        ffi::exclusions_migrate_funding_tx(&mut self.table, &old_hash.0, &new_hash.0, molecule::option(tx))
    }

    /// Drops what was committed 13 blocks before the tip, or earlier. Never refused.
    ///
    /// ```
    /// use basinpantry::{CellInput, H256, LiveCellsExclusionMap, Transaction};
    ///
    /// let tx = Transaction { inputs: vec![CellInput::default()], ..Transaction::default() };
    /// let mut map = LiveCellsExclusionMap::new();
    /// map.add(&H256([9; 32]), Some(&tx.to_bytes())).unwrap();
    /// // what is pending stays
    /// map.truncate(u64::MAX);
    /// assert_eq!(map.apply().len(), 1);
    /// ```
    pub fn truncate(&mut self, tip: u64) {
        ffi::unrefused(ffi::exclusions_truncate(&mut self.table, tip));
    }

    /// The out points of all entries, in their order: the cells that are not to be collected. Nothing changes. Never refused.
    ///
    /// The name is the original's, where the map is applied to a cell collector, so that it doesn't collect these cells.
    ///
    /// ```
    /// assert!(basinpantry::LiveCellsExclusionMap::default().apply().is_empty());
    /// ```
    #[doc(alias = "excluded")]
    #[doc(alias = "out_points")]
    pub fn apply(&self) -> Vec<OutPoint> {
        ffi::unrefused(self.listed())
    }

    /// The same of any bytes: refused (3) where they are no map, which `from_bytes` lets no one keep.
    fn listed(&self) -> Result<Vec<OutPoint>, Refusal> {
        let mut out = vec![0; 4 + 36 * OUT_POINTS];
        ffi::exclusions_apply(&self.table, &mut out)?;
        Ok(read_out_points(&out))
    }
}

impl Default for LiveCellsExclusionMap {
    fn default() -> LiveCellsExclusionMap {
        LiveCellsExclusionMap::new()
    }
}

impl PartialEq for LiveCellsExclusionMap {
    fn eq(&self, other: &LiveCellsExclusionMap) -> bool {
        self.entries().eq(other.entries())
    }
}

impl Eq for LiveCellsExclusionMap {}

impl std::fmt::Debug for LiveCellsExclusionMap {
    fn fmt(&self, f: &mut std::fmt::Formatter<'_>) -> std::fmt::Result {
        f.write_str("LiveCellsExclusionMap ")?;
        f.debug_list().entries(self.entries()).finish()
    }
}
