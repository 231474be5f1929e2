//! Basinpantry judges the funding transactions that a peer proposes when a CKB payment channel is opened. This crate is a safe one over the proved
//! library (`libcapi.a`, header `bindings/c/basinpantry.h`): no bytes that a peer, a caller or a damaged file supplies stop it, and a refused call has changed
//! nothing.
//!
//! - [`update_for_peer`] judges one [`PeerUpdate`], [`Negotiation`] keeps the transaction in force.
//! - [`reason()`] says which of the checks under a refusal's number failed.
//! - [`CaseFile`] is an update in one file; the program `basinpantry` makes, judges and shows such files.
//! - [`replay`] judges a list of updates in one call.
//! - [`HeldCells`] and [`LiveCellsExclusionMap`] keep which cells of ours are in use.
//! - [`build_base`] writes the base transaction of our own side.
//! - [`json`] reads what a node prints.
//! - [`Transaction`], [`Script`], [`H256`] and the like are the lent bytes as Rust values.
//!
//! Transactions and scripts are lent as their bytes, and one that may be missing as an `Option` of them. One of no bytes is not missing, but unreadable.
//!
//! Where an item says "Refused", the numbers are those of [`Refusal`], in the order in which they are looked for: where several apply, the first is the answer.
//!
//! A thread that calls needs half a megabyte of stack; those of the standard library have more unless they are asked for less.
//!
//! ```
//! use basinpantry::{PeerUpdate, Refusal, Script, update_for_peer, write_records};
//!
//! let script = Script::default().to_bytes();
//! let update = PeerUpdate { peer: b"no transaction", records: &write_records(&[]), source: &script, rate: 1000 };
//! assert_eq!(update_for_peer(None, &script, None, &update), Err(Refusal::PeerTransactionUnreadable));
//! ```
#![deny(missing_docs, unsafe_code)]

mod case_file;
mod cells;
mod exclusions;
#[allow(unsafe_code)]
mod ffi;
mod funding;
mod held_cells;
pub mod json;
mod molecule;
mod names;
mod reason;
mod refusal;
mod replay;
mod total;
mod transaction;
mod update;

pub use case_file::{CaseError, CaseFile, CaseRecord, MAX_CASE_BYTES, check_case};
pub use cells::{CellDep, CellInput, CellOutput, OutPoint, ParseOutPointError, ResolvedCell, Script, write_records};
pub use exclusions::{EXCLUSIONS_BYTES, LiveCellsExclusion, LiveCellsExclusionMap};
pub use funding::{
    BaseRequest, FundingCell, FundingRequest, TokenCell, TokenPick, build_base, build_funding_cell, build_udt_inputs_outputs,
};
pub use held_cells::{HELD_BYTES, HeldCells, Hold, Owner, Taken, Taker};
pub use names::{DepType, H256, HashType, ParseNameError};
pub use reason::reason;
pub use refusal::Refusal;
pub use replay::{Replay, replay};
pub use total::{Total, TotalTooWide};
pub use transaction::{
    List, MAX_TRANSACTION_BYTES, Transaction, is_out_points, is_records, is_script, is_transaction, item, item_count, items, rewrite,
    version, write_transaction,
};
pub use update::{Accepted, Negotiation, PeerUpdate, update_for_peer};
