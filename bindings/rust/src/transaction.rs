//! Transactions as Rust values.
use crate::cells::{CellDep, CellInput, CellOutput, amount_of};
use crate::names::H256;
use crate::refusal::Refusal;
use crate::{ffi, molecule};

/// The longest transaction that is judged or written.
pub const MAX_TRANSACTION_BYTES: usize = 133_116;

/// How many words tell where an item stands: its start and its length.
const PLACE_WORDS: usize = 2;

/// Whether the bytes are a transaction (RFC 0019), without extra fields.
///
/// ```
/// use basinpantry::{Transaction, is_transaction};
///
/// let bytes = Transaction::default().to_bytes();
/// assert_eq!(bytes.len(), 68);
/// assert!(is_transaction(&bytes));
/// assert!(!is_transaction(&bytes[..67]));
/// ```
pub fn is_transaction(s: &[u8]) -> bool {
    ffi::is_transaction(s)
}

/// Whether the bytes are a script.
///
/// ```
/// assert!(basinpantry::is_script(&basinpantry::Script::default().to_bytes()));
/// assert!(!basinpantry::is_script(&[]));
/// ```
pub fn is_script(s: &[u8]) -> bool {
    ffi::is_script(s)
}

/// Whether the bytes are a list of resolved cells, as [`write_records`](crate::write_records) writes it.
///
/// ```
/// assert!(basinpantry::is_records(&[4, 0, 0, 0]));
/// assert!(!basinpantry::is_records(&[]));
/// ```
pub fn is_records(s: &[u8]) -> bool {
    ffi::is_records(s)
}

/// Whether the bytes are a list of out points: a count of four bytes, and 36 bytes for each.
///
/// ```
/// assert!(basinpantry::is_out_points(&[0; 4]));
/// assert!(!basinpantry::is_out_points(&[1, 0, 0, 0]));
/// ```
pub fn is_out_points(s: &[u8]) -> bool {
    ffi::is_out_points(s)
}

/// A transaction by its fields; the default has version 0 and empty lists.
///
/// ```
/// use basinpantry::{CellInput, Transaction};
///
/// let tx = Transaction { inputs: vec![CellInput::default()], witnesses: vec![vec![1, 2]], ..Transaction::default() };
/// assert_eq!(Transaction::from_bytes(&tx.to_bytes()), Some(tx));
/// ```
#[derive(Clone, Debug, Default, PartialEq, Eq, Hash)]
pub struct Transaction {
    /// The version.
    pub version: u32,
    /// The cells whose data the scripts need.
    pub cell_deps: Vec<CellDep>,
    /// The blocks whose headers the scripts need.
    pub header_deps: Vec<H256>,
    /// The cells that are spent.
    pub inputs: Vec<CellInput>,
    /// The cells that are made.
    pub outputs: Vec<CellOutput>,
    /// Their data, by place.
    pub outputs_data: Vec<Vec<u8>>,
    /// What the locks are shown.
    pub witnesses: Vec<Vec<u8>>,
}

impl Transaction {
    /// Its bytes (RFC 0019).
    ///
    /// ```
    /// use basinpantry::{CellInput, CellOutput, Transaction};
    ///
    /// let tx = Transaction {
    ///     inputs: vec![CellInput::default()],
    ///     outputs: vec![CellOutput::default()],
    ///     outputs_data: vec![vec![]],
    ///     ..Transaction::default()
    /// };
    /// assert_eq!(tx.to_bytes().len(), 201);
    /// ```
    pub fn to_bytes(&self) -> Vec<u8> {
        let [cell_deps, header_deps, inputs, outputs, outputs_data, witnesses] = self.lists();
        let raw = molecule::table(&[&self.version.to_le_bytes()[..], &cell_deps, &header_deps, &inputs, &outputs, &outputs_data]);
        molecule::table(&[raw, witnesses])
    }

    /// Its six lists, in the order of the fields.
    fn lists(&self) -> [Vec<u8>; 6] {
        let outputs: Vec<Vec<u8>> = self.outputs.iter().map(CellOutput::to_bytes).collect();
        [
            molecule::fixvec(self.cell_deps.iter().map(CellDep::to_bytes)),
            molecule::fixvec(&self.header_deps),
            molecule::fixvec(self.inputs.iter().map(CellInput::to_bytes)),
            molecule::table(&outputs),
            molecule::bytes_vec(&self.outputs_data),
            molecule::bytes_vec(&self.witnesses),
        ]
    }

    /// The transaction of these bytes, if they are one ([`is_transaction`]).
    ///
    /// ```
    /// assert_eq!(basinpantry::Transaction::from_bytes(&[]), None);
    /// ```
    pub fn from_bytes(s: &[u8]) -> Option<Transaction> {
        let version = version(s)?;
        let list = |list| items(s, list);
        Some(Transaction {
            version,
            cell_deps: list(List::CellDeps)?.into_iter().map(CellDep::from_bytes).collect::<Option<_>>()?,
            header_deps: list(List::HeaderDeps)?.into_iter().map(H256::from_bytes).collect::<Option<_>>()?,
            inputs: list(List::Inputs)?.into_iter().map(CellInput::from_bytes).collect::<Option<_>>()?,
            outputs: list(List::Outputs)?.into_iter().map(CellOutput::from_bytes).collect::<Option<_>>()?,
            outputs_data: list(List::OutputsData)?.into_iter().map(<[u8]>::to_vec).collect(),
            witnesses: list(List::Witnesses)?.into_iter().map(<[u8]>::to_vec).collect(),
        })
    }

    /// The amount of tokens that the data of an output begins with (RFC 0025); none where it has under 16 bytes or is missing.
    ///
    /// ```
    /// use basinpantry::Transaction;
    ///
    /// let tx = Transaction { outputs_data: vec![5u128.to_le_bytes().to_vec(), vec![1]], ..Transaction::default() };
    /// assert_eq!((tx.amount(0), tx.amount(1), tx.amount(2)), (Some(5), None, None));
    /// ```
    pub fn amount(&self, i: usize) -> Option<u128> {
        amount_of(self.outputs_data.get(i)?)
    }
}

/// A list of a transaction, by the number that the library has for it.
///
/// ```
/// assert_ne!(basinpantry::List::Outputs, basinpantry::List::OutputsData);
/// ```
#[derive(Clone, Copy, Debug, PartialEq, Eq, Hash)]
#[repr(u32)]
pub enum List {
    /// Items of 37 bytes ([`CellDep`]).
    CellDeps = 0,
    /// Items of 32 bytes.
    HeaderDeps = 1,
    /// Items of 44 bytes ([`CellInput`]).
    Inputs = 2,
    /// Tables ([`CellOutput`]).
    Outputs = 3,
    /// The data of the outputs.
    OutputsData = 4,
    /// The witnesses.
    Witnesses = 5,
}

/// The version of a transaction by the proved reader; none of bytes that are no transaction.
///
/// ```
/// use basinpantry::{Transaction, version};
///
/// assert_eq!(version(&Transaction { version: 7, ..Transaction::default() }.to_bytes()), Some(7));
/// assert_eq!(version(&[]), None);
/// ```
pub fn version(tx: &[u8]) -> Option<u32> {
    let [version, ..] = found(ffi::version(tx))?;
    Some(u32::try_from(version).expect("a version has 32 bits"))
}

/// What a transaction is asked for; none of bytes that are no transaction. Every [`List`] is one of the six, so nothing else is refused.
fn found<T>(answer: Result<T, Refusal>) -> Option<T> {
    match answer {
        Err(Refusal::OurTransactionUnreadable) => None,
        other => Some(ffi::unrefused(other)),
    }
}

/// How many items a list of a transaction has, by the proved reader; none of bytes that are no transaction.
///
/// ```
/// use basinpantry::{List, Transaction, item_count};
///
/// let tx = Transaction { witnesses: vec![vec![1], vec![2, 3]], ..Transaction::default() }.to_bytes();
/// assert_eq!((item_count(&tx, List::Witnesses), item_count(&tx, List::Inputs)), (Some(2), Some(0)));
/// assert_eq!(item_count(&[], List::Inputs), None);
/// ```
pub fn item_count(tx: &[u8], list: List) -> Option<usize> {
    let [count, ..] = found(ffi::item_count(tx, list as u32))?;
    Some(ffi::size(count))
}

/// The items of a list of a transaction, where they stand in its bytes, by the proved reader; none of bytes that are no transaction. The transaction is read twice,
/// for their number and for their places, however many items there are.
///
/// ```
/// use basinpantry::{List, Transaction, items};
///
/// let tx = Transaction { witnesses: vec![vec![1], vec![2, 3]], ..Transaction::default() }.to_bytes();
/// assert_eq!(items(&tx, List::Witnesses), Some(vec![&[1][..], &[2, 3]]));
/// assert_eq!(items(&tx, List::Inputs), Some(vec![]));
/// assert_eq!(items(&[], List::Inputs), None);
/// ```
pub fn items(tx: &[u8], list: List) -> Option<Vec<&[u8]>> {
    let mut places = vec![0; PLACE_WORDS * item_count(tx, list)?];
    // there are as many items as were counted, so there is room for the place of each
    found(ffi::items(tx, list as u32, &mut places))?;
    let place = |place: &[u64]| {
        let start = ffi::size(place[0]);
        &tx[start..start + ffi::size(place[1])]
    };
    Some(places.chunks_exact(PLACE_WORDS).map(place).collect())
}

/// Item `i` of a list of a transaction, by the proved reader; none where the list ends before it. Each call reads the whole transaction; [`items`] has all items of
/// a list, with no bound on an item. Refused: 1 (the bytes are no transaction), 13 (the item has more than
/// 133,116 bytes).
///
/// ```
/// use basinpantry::{List, Refusal, Transaction, item};
///
/// let tx = Transaction { witnesses: vec![vec![1], vec![2, 3]], ..Transaction::default() }.to_bytes();
/// assert_eq!(item(&tx, List::Witnesses, 1), Ok(Some(vec![2, 3])));
/// assert_eq!(item(&tx, List::Witnesses, 2), Ok(None));
/// assert_eq!(item(b"no transaction", List::Witnesses, 0), Err(Refusal::OurTransactionUnreadable));
/// ```
pub fn item(tx: &[u8], list: List, i: usize) -> Result<Option<Vec<u8>>, Refusal> {
    // an item is no longer than the transaction
    let mut out = vec![0; tx.len()];
    match ffi::item(tx, list as u32, i, &mut out) {
        Ok([size, ..]) => {
            out.truncate(ffi::size(size));
            Ok(Some(out))
        }
        // every `List` is one of the six, so it is the item that there is not
        Err(Refusal::LentBytesUnreadable) => Ok(None),
        Err(why) => Err(why),
    }
}

/// Writes a transaction by the proved writer. Refused: 3 (one of its lists has 2^32 bytes or more), 13 (it would have more than 133,116 bytes).
///
/// ```
/// use basinpantry::{Refusal, Transaction, write_transaction};
///
/// let tx = Transaction { witnesses: vec![vec![7; 9]], ..Transaction::default() };
/// assert_eq!(write_transaction(&tx), Ok(tx.to_bytes()));
/// let long = Transaction { witnesses: vec![vec![0; 140_000]], ..Transaction::default() };
/// assert_eq!(write_transaction(&long), Err(Refusal::BufferTooShort));
/// ```
pub fn write_transaction(tx: &Transaction) -> Result<Vec<u8>, Refusal> {
    let lists = tx.lists();
    let mut out = vec![0; MAX_TRANSACTION_BYTES];
    let [size, ..] = ffi::write_transaction(tx.version, lists.each_ref().map(|list| &list[..]), &mut out)?;
    out.truncate(ffi::size(size));
    Ok(out)
}

/// Reads the fields of a transaction and writes them again, which is proved to give the same bytes. Refused: 1 (the bytes are no transaction), 13
/// (they are more than 133,116).
///
/// ```
/// use basinpantry::{Refusal, Transaction, rewrite};
///
/// let bytes = Transaction::default().to_bytes();
/// assert_eq!(rewrite(&bytes), Ok(bytes));
/// assert_eq!(rewrite(b"no transaction"), Err(Refusal::OurTransactionUnreadable));
/// ```
pub fn rewrite(tx: &[u8]) -> Result<Vec<u8>, Refusal> {
    let mut out = vec![0; MAX_TRANSACTION_BYTES];
    let [size, ..] = ffi::rewrite(tx, &mut out)?;
    out.truncate(ffi::size(size));
    Ok(out)
}
