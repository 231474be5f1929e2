//! Case files: an update with everything that decides it.
use crate::cells::{CellOutput, ResolvedCell, record, record_size};
use crate::ffi;
use crate::molecule;
use crate::reason::reason;
use crate::refusal::Refusal;
use crate::update::{Accepted, PeerUpdate, update_for_peer};
use std::fmt;

/// The longest case file that [`check_case`] judges; [`CaseFile::judge`] has no such bound.
pub const MAX_CASE_BYTES: usize = 65_536;

/// Room for the longest verdict line.
const LINE_BYTES: usize = 105;

/// The cell that an added input spends, as a case file has it: the bytes of its output, which may be anything, and its data.
///
/// ```
/// let record = basinpantry::CaseRecord { output: basinpantry::CellOutput::default().to_bytes(), data: vec![] };
/// assert_eq!(record.output.len(), 77);
/// ```
#[derive(Clone, Debug, Default, PartialEq, Eq, Hash)]
pub struct CaseRecord {
    /// The bytes of the output.
    pub output: Vec<u8>,
    /// The data.
    pub data: Vec<u8>,
}

impl CaseRecord {
    /// The cell, if the bytes of its output are one.
    ///
    /// ```
    /// use basinpantry::{CaseRecord, ResolvedCell};
    ///
    /// let cell = ResolvedCell { data: vec![7], ..ResolvedCell::default() };
    /// assert_eq!(CaseRecord::from(cell.clone()).cell(), Some(cell));
    /// assert_eq!(CaseRecord::default().cell(), None);
    /// ```
    pub fn cell(&self) -> Option<ResolvedCell> {
        Some(ResolvedCell { output: CellOutput::from_bytes(&self.output)?, data: self.data.clone() })
    }
}

/// A readable cell as the record that a case file has.
///
/// ```
/// use basinpantry::{CaseRecord, ResolvedCell};
///
/// let cell = ResolvedCell { data: vec![7], ..ResolvedCell::default() };
/// assert_eq!(CaseRecord::from(cell.clone()), CaseRecord { output: cell.output.to_bytes(), data: vec![7] });
/// ```
impl From<ResolvedCell> for CaseRecord {
    fn from(cell: ResolvedCell) -> CaseRecord {
        CaseRecord { output: cell.output.to_bytes(), data: cell.data }
    }
}

/// What a case file holds. The parts are any bytes: whether they are transactions and scripts is judged.
///
/// The file is a sequence of items: a 32-bit word (top 4 bits the kind, low 28 the length, little-endian), then the body, padded with zeros to 4 bytes. In
/// order: 1 our transaction (may be missing), 2 the peer's, 3 the expected funding lock, 4 the expected token type (may be missing), 5 our source lock, 6 the fee
/// rate (8 bytes), and for each added input 7 the output and 8 the data of the cell that it spends, or 9 (length 0) where that cell is not live.
///
/// ```
/// use basinpantry::*;
///
/// let case = CaseFile { lock: Script::default().to_bytes(), rate: 1000, records: vec![None], ..CaseFile::default() };
/// let bytes = case.to_bytes().unwrap();
/// assert_eq!(bytes[..4], [0, 0, 0, 0x20]);
/// assert_eq!(CaseFile::from_bytes(&bytes), Ok(case));
/// ```
#[derive(Clone, Debug, Default, PartialEq, Eq, Hash)]
pub struct CaseFile {
    /// Our transaction in force, if there is one.
    pub ours: Option<Vec<u8>>,
    /// The peer's transaction.
    pub peer: Vec<u8>,
    /// The expected funding lock.
    pub lock: Vec<u8>,
    /// The expected token type, if the channel has one.
    pub udt: Option<Vec<u8>>,
    /// Our source lock.
    pub source: Vec<u8>,
    /// The fee rate, in shannons per 1000 bytes.
    pub rate: u64,
    /// For each input that the peer added its cell; none where that is not live.
    pub records: Vec<Option<CaseRecord>>,
}

/// Where and why bytes are no case file.
///
/// ```
/// let why = basinpantry::CaseFile::from_bytes(&[0; 8]).unwrap_err();
/// assert_eq!(why.to_string(), "byte 0: an item of kind 2 (the peer's transaction) is expected here, and this is of kind 0");
/// ```
#[derive(Clone, Debug, PartialEq, Eq)]
pub struct CaseError {
    /// The place in the file, or its length where something is missing at the end.
    pub at: usize,
    message: String,
}

impl fmt::Display for CaseError {
    fn fmt(&self, f: &mut fmt::Formatter<'_>) -> fmt::Result {
        write!(f, "byte {}: {}", self.at, self.message)
    }
}

impl std::error::Error for CaseError {}

/// The kinds of items, in the order of the file.
mod kind {
    pub const OURS: u32 = 1;
    pub const PEER: u32 = 2;
    pub const LOCK: u32 = 3;
    pub const UDT: u32 = 4;
    pub const SOURCE: u32 = 5;
    pub const RATE: u32 = 6;
    pub const OUTPUT: u32 = 7;
    pub const DATA: u32 = 8;
    pub const NOT_LIVE: u32 = 9;
}

/// What stands in an item of a kind.
fn kind_name(kind: u32) -> &'static str {
    match kind {
        kind::OURS => "our transaction",
        kind::PEER => "the peer's transaction",
        kind::LOCK => "the expected funding lock",
        kind::UDT => "the expected token type",
        kind::SOURCE => "our source lock",
        kind::RATE => "the fee rate",
        kind::OUTPUT => "the output of a cell",
        kind::DATA => "the data of a cell",
        kind::NOT_LIVE => "a cell that is not live",
        _ => "no kind of item",
    }
}

/// Goes through the items of a file.
struct Items<'a> {
    file: &'a [u8],
    at: usize,
}

impl<'a> Items<'a> {
    fn fail<T>(&self, at: usize, message: impl Into<String>) -> Result<T, CaseError> {
        Err(CaseError { at, message: message.into() })
    }

    /// The kind and length of the item here; none at the end of the file.
    fn word(&self) -> Result<Option<(u32, usize)>, CaseError> {
        let rest = &self.file[self.at..];
        if rest.is_empty() {
            return Ok(None);
        }
        match rest.first_chunk::<4>() {
            Some(word) => {
                let word = u32::from_le_bytes(*word);
                Ok(Some((word >> 28, (word & 0x0fff_ffff) as usize)))
            }
            None => self.fail(self.at, "an item begins with a word of 4 bytes, and the file ends within it"),
        }
    }

    /// The body of the next item if it is of this kind; else nothing is passed.
    fn optional(&mut self, kind: u32) -> Result<Option<&'a [u8]>, CaseError> {
        let file = self.file;
        let Some((found, length)) = self.word()? else { return Ok(None) };
        if found != kind {
            return Ok(None);
        }
        // no sum here is above 2^28 more than the file's length
        let (start, end) = (self.at + 4, self.at + 4 + length);
        let padded = end.next_multiple_of(4);
        let Some(body) = file.get(start..end) else {
            return self.fail(
                self.at,
                format!(
                    "{} has a length of {length} bytes, and the file ends {} bytes after its word",
                    kind_name(kind),
                    file.len() - start
                ),
            );
        };
        match file.get(end..padded) {
            Some(padding) if padding.iter().all(|b| *b == 0) => {
                self.at = padded;
                Ok(Some(body))
            }
            Some(_) => self.fail(end, "the padding to 4 bytes is not zero"),
            None => self.fail(file.len(), "the padding to 4 bytes is missing"),
        }
    }

    /// The same of an item that may be missing: one of no bytes means that too.
    fn filled(&mut self, kind: u32) -> Result<Option<Vec<u8>>, CaseError> {
        Ok(self.optional(kind)?.filter(|body| !body.is_empty()).map(<[u8]>::to_vec))
    }

    /// The body of the next item, which has to be of this kind.
    fn required(&mut self, kind: u32) -> Result<&'a [u8], CaseError> {
        let at = self.at;
        if let Some(body) = self.optional(kind)? {
            return Ok(body);
        }
        let expected = format!("an item of kind {kind} ({}) is expected here, and ", kind_name(kind));
        match self.word()? {
            Some((found, _)) => self.fail(at, format!("{expected}this is of kind {found}")),
            None => self.fail(at, format!("{expected}the file ends")),
        }
    }
}

impl<'a> Items<'a> {
    /// The next record, output and data, or none where the cell is not live; nothing at the end of the file.
    #[allow(clippy::type_complexity)]
    fn record(&mut self) -> Result<Option<Option<(&'a [u8], &'a [u8])>>, CaseError> {
        let at = self.at;
        if at == self.file.len() {
            return Ok(None);
        }
        match self.optional(kind::NOT_LIVE)? {
            Some([]) => Ok(Some(None)),
            Some(_) => self.fail(at, "a cell that is not live has no bytes"),
            None => Ok(Some(Some((self.required(kind::OUTPUT)?, self.required(kind::DATA)?)))),
        }
    }
}

impl CaseFile {
    /// What a case file of any length holds. [`check_case`] answers 3 to one of more than 65,536 bytes, though it is read and judged here.
    ///
    /// ```
    /// let why = basinpantry::CaseFile::from_bytes(b"").unwrap_err();
    /// assert_eq!(why.at, 0);
    /// ```
    pub fn from_bytes(file: &[u8]) -> Result<CaseFile, CaseError> {
        let mut items = Items { file, at: 0 };
        let ours = items.filled(kind::OURS)?;
        let peer = items.required(kind::PEER)?.to_vec();
        let lock = items.required(kind::LOCK)?.to_vec();
        let udt = items.filled(kind::UDT)?;
        let source = items.required(kind::SOURCE)?.to_vec();
        let at = items.at;
        let Ok(rate) = items.required(kind::RATE)?.try_into() else { return items.fail(at, "the fee rate is 8 bytes") };
        // a record may have 4 bytes in the file, and takes many more here: room is made for as many as there are
        let mut ahead = Items { ..items };
        let mut count = 0;
        while ahead.record()?.is_some() {
            count += 1;
        }
        let mut records = Vec::with_capacity(count);
        while let Some(record) = items.record()? {
            records.push(record.map(|(output, data)| CaseRecord { output: output.to_vec(), data: data.to_vec() }));
        }
        Ok(CaseFile { ours, peer, lock, udt, source, rate: u64::from_le_bytes(rate), records })
    }

    /// The case file's bytes; none where no item can hold a part: one of 2^28 bytes or more, and a transaction of ours or a token type of no bytes, since an item
    /// of no bytes means that there is none.
    ///
    /// ```
    /// use basinpantry::CaseFile;
    ///
    /// assert_eq!(CaseFile::default().to_bytes().map(|s| s.len()), Some(24));
    /// assert_eq!(CaseFile { ours: Some(vec![]), ..CaseFile::default() }.to_bytes(), None);
    /// ```
    pub fn to_bytes(&self) -> Option<Vec<u8>> {
        fn put(out: &mut Vec<u8>, kind: u32, body: &[u8]) -> Option<()> {
            let length = u32::try_from(body.len()).ok().filter(|n| *n < 1 << 28)?;
            out.extend((kind << 28 | length).to_le_bytes());
            out.extend(body);
            out.resize(out.len().next_multiple_of(4), 0);
            Some(())
        }
        fn put_filled(out: &mut Vec<u8>, kind: u32, body: &Option<Vec<u8>>) -> Option<()> {
            match body {
                None => Some(()),
                Some(body) if body.is_empty() => None,
                Some(body) => put(out, kind, body),
            }
        }
        let mut out = Vec::new();
        put_filled(&mut out, kind::OURS, &self.ours)?;
        put(&mut out, kind::PEER, &self.peer)?;
        put(&mut out, kind::LOCK, &self.lock)?;
        put_filled(&mut out, kind::UDT, &self.udt)?;
        put(&mut out, kind::SOURCE, &self.source)?;
        put(&mut out, kind::RATE, &self.rate.to_le_bytes())?;
        for record in &self.records {
            match record {
                Some(record) => {
                    put(&mut out, kind::OUTPUT, &record.output)?;
                    put(&mut out, kind::DATA, &record.data)?;
                }
                None => put(&mut out, kind::NOT_LIVE, &[])?,
            }
        }
        Some(out)
    }

    /// The records as the list that an update lends.
    ///
    /// ```
    /// assert_eq!(basinpantry::CaseFile::default().records_bytes(), [4, 0, 0, 0]);
    /// ```
    pub fn records_bytes(&self) -> Vec<u8> {
        // written in one go, since there may be many that are not live
        let size = |cell: &Option<CaseRecord>| cell.as_ref().map_or(0, |cell| record_size(&cell.output, &cell.data));
        let mut out = molecule::head(self.records.iter().map(size));
        for cell in self.records.iter().flatten() {
            out.extend(record(&cell.output, &cell.data));
        }
        out
    }

    /// Judges the update that it holds ([`update_for_peer`]), however long the file is.
    ///
    /// ```
    /// assert_eq!(basinpantry::CaseFile::default().judge(), Err(basinpantry::Refusal::PeerTransactionUnreadable));
    /// ```
    pub fn judge(&self) -> Result<Accepted, Refusal> {
        update_for_peer(self.ours.as_deref(), &self.lock, self.udt.as_deref(), &self.update(&self.records_bytes()))
    }

    /// Which of the checks under its number refused the update that it holds ([`reason()`](crate::reason())).
    ///
    /// ```
    /// use basinpantry::{CaseFile, Script, Transaction};
    ///
    /// let case = CaseFile { peer: Transaction::default().to_bytes(), lock: Script::default().to_bytes(), ..CaseFile::default() };
    /// let why = case.judge().unwrap_err();
    /// assert_eq!(case.reason(&why).unwrap(), "our source lock is no script");
    /// ```
    pub fn reason(&self, why: &Refusal) -> Option<String> {
        reason(self.ours.as_deref(), &self.lock, self.udt.as_deref(), &self.update(&self.records_bytes()), why)
    }

    /// The update that it holds, over its list of records.
    ///
    /// ```
    /// let case = basinpantry::CaseFile { rate: 7, ..Default::default() };
    /// assert_eq!(case.update(&case.records_bytes()).rate, 7);
    /// ```
    pub fn update<'a>(&'a self, records: &'a [u8]) -> PeerUpdate<'a> {
        PeerUpdate { peer: &self.peer, records, source: &self.source, rate: self.rate }
    }
}

/// The verdict line of a case file, which ends in a newline: 0 and the capacity surplus as 32 hex digits, or the number of the refusal and its values. Any
/// bytes that are no case file, or more than 65,536, are 3.
///
/// ```
/// assert_eq!(basinpantry::check_case(b"no case"), "3\n");
/// ```
pub fn check_case(file: &[u8]) -> String {
    let mut line = [0; LINE_BYTES];
    // every line fits
    let [length, ..] = ffi::unrefused(ffi::check_case(file, &mut line));
    line.iter().take(ffi::size(length)).copied().map(char::from).collect()
}
