//! What a node prints: transactions, scripts and cells in the JSON of CKB's RPC and of ckb-cli.
//!
//! Each function takes a whole text, such as a file or the body of an RPC's answer, and says with line and column what is wrong with it. JSON is read strictly: a
//! field that CKB doesn't have is refused, since it may be `type` misspelt, and so are a field that stands twice and a number with zeros in front, which CKB refuses
//! too. An answer in which the node failed is an error with the node's code and message.
//!
//! Reading takes no memory beyond the caller's text. What is made of it takes at most eight times the text's length, and a record 160 bytes at least, of which there
//! are at most 4,096 or one for each added input. Lists and objects are nested over at most [`MAX_DEPTH`] levels, and an object has at most [`MAX_FIELDS`] fields.
//! How long a text may be is for the caller to say.
//!
//! ```
//! use basinpantry::{H256, HashType, Script, json};
//!
//! let text = format!(r#"{{"code_hash": "0x{}", "hash_type": "type", "args": "0x0102"}}"#, "ab".repeat(32));
//! let lock = json::script(&text).unwrap();
//! assert_eq!(lock, Script { code_hash: H256([0xab; 32]), hash_type: HashType::TYPE, args: vec![1, 2] });
//!
//! let why = json::script(text.replace("\"type\"", "\"typ\"")).unwrap_err();
//! assert_eq!(why.to_string(), "line 1, column 98: hash_type is one of data, type, data1, data2, not \"typ\"");
//! ```
mod node;
mod records;
mod text;
mod values;

pub use records::Records;
pub use text::{MAX_DEPTH, MAX_FIELDS};

use crate::cells::Script;
use crate::transaction::Transaction;
use std::fmt;
use text::Value;

/// What is wrong with a text, and where.
///
/// ```
/// let why = basinpantry::json::transaction("{\n  \"version\": 0}").unwrap_err();
/// assert_eq!((why.line, why.column), (1, 1));
/// assert_eq!(why.to_string(), "line 1, column 1: the field \"cell_deps\" is missing");
/// ```
#[derive(Clone, Debug, PartialEq, Eq)]
pub struct Error {
    /// The line, from 1.
    pub line: usize,
    /// The character in the line, from 1.
    pub column: usize,
    message: String,
}

impl Error {
    /// What is wrong, without the place.
    ///
    /// ```
    /// assert_eq!(basinpantry::json::script("[]").unwrap_err().message(), "an object is expected, not a list");
    /// ```
    pub fn message(&self) -> &str {
        &self.message
    }
}

impl fmt::Display for Error {
    fn fmt(&self, f: &mut fmt::Formatter<'_>) -> fmt::Result {
        write!(f, "line {}, column {}: {}", self.line, self.column, self.message)
    }
}

impl std::error::Error for Error {}

/// Whether a text is JSON, whatever it is about.
///
/// ```
/// assert!(basinpantry::json::is_json("[1, 2]"));
/// assert!(!basinpantry::json::is_json("[1, 2"));
/// ```
pub fn is_json(text: impl AsRef<[u8]>) -> bool {
    Value::read(text.as_ref()).is_ok()
}

/// What a text is that was taken for JSON, where it has a byte order mark or looks like YAML.
///
/// ```
/// use basinpantry::json::another_kind;
///
/// assert_eq!(another_kind("version: 0x0\n"), Some("the text looks like YAML, not JSON; ckb-cli prints JSON with --output-format json"));
/// assert_eq!(another_kind("{}"), None);
/// ```
pub fn another_kind(text: impl AsRef<[u8]>) -> Option<&'static str> {
    text::another_kind(text.as_ref())
}

/// A transaction: its fields, also inside of what `get_transaction` answers (with the hex of verbosity 0 or the fields of verbosity 2) or of a file of ckb-cli.
///
/// ```
/// use basinpantry::{Transaction, json};
///
/// let text = r#"{"version": "0x0", "cell_deps": [], "header_deps": [], "inputs": [], "outputs": [], "outputs_data": [], "witnesses": ["0x07"]}"#;
/// let tx = Transaction { witnesses: vec![vec![7]], ..Transaction::default() };
/// assert_eq!(json::transaction(text), Ok(tx.clone()));
/// let answer = format!(r#"{{"jsonrpc": "2.0", "result": {{"transaction": {text}, "tx_status": {{"status": "pending"}}}}, "id": 1}}"#);
/// assert_eq!(json::transaction(answer), Ok(tx));
///
/// let failed = r#"{"jsonrpc": "2.0", "error": {"code": -3, "message": "busy"}, "id": 1}"#;
/// assert_eq!(json::transaction(failed).unwrap_err().to_string(), "line 1, column 29: the node answered with an error: -3: busy");
/// ```
pub fn transaction(text: impl AsRef<[u8]>) -> Result<Transaction, Error> {
    node::transaction(Value::read(text.as_ref())?)
}

/// A script: a lock, or a type.
///
/// ```
/// let text = format!(r#"{{"code_hash": "0x{}", "hash_type": "data", "args": "0x"}}"#, "00".repeat(32));
/// assert_eq!(basinpantry::json::script(text), Ok(basinpantry::Script::default()));
/// ```
pub fn script(text: impl AsRef<[u8]>) -> Result<Script, Error> {
    node::script(Value::read(text.as_ref())?)
}

/// The records of an update: the cells that the inputs spend which the peer's transaction adds to ours, or to none.
///
/// - A list has an entry for each added input, in their order: null where the cell is not live, or its `output`, its `data` and, if it is to be compared with the
///   input's, its `out_point`.
/// - An entry may be an answer of `get_live_cell` with data. Answers with an `id`, as in a batch, are put in the order of their ids. Refused are an id that stands
///   twice, answers of which some have an id and some have none, and a gap between ids where there is not one answer for each input.
/// - An answer of `get_live_cell` alone is the record of one input.
/// - From an indexer's answer (`get_cells`, with data) each input's cell is taken by its out point. Other cells are passed over, and an input whose cell is not
///   listed counts as not live ([`Records::unlisted`]).
///
/// ```
/// use basinpantry::{CellInput, Transaction, json};
///
/// let peer = Transaction { inputs: vec![CellInput::default(); 2], ..Transaction::default() };
/// let answer = |id: u32| format!(r#"{{"jsonrpc": "2.0", "result": {{"cell": null, "status": "unknown"}}, "id": {id}}}"#);
/// let batch = format!("[{}, {}]", answer(2), answer(1));
/// assert_eq!(json::records(batch, None, &peer).unwrap().cells, [None, None]);
///
/// let twice = format!("[{},\n {}]", answer(1), answer(1));
/// assert_eq!(json::records(twice, None, &peer).unwrap_err().to_string(), "line 2, column 2: the id 1 stands a second time");
/// ```
pub fn records(text: impl AsRef<[u8]>, ours: Option<&Transaction>, peer: &Transaction) -> Result<Records, Error> {
    let shared = ours.map_or(0, |ours| ours.inputs.len());
    let added: Vec<_> = peer.inputs.iter().enumerate().skip(shared).map(|(i, input)| (i, input.previous_output)).collect();
    records::records(Value::read(text.as_ref())?, &added)
}
