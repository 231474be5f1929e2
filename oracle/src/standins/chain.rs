//! What the original fetches from the chain, lent by the caller through a thread-local desk:
//! the records of a peer's added inputs (in order of asking) and the token's dependencies.
use super::{bytes::Bytes, packed, sdk::*};
use std::cell::RefCell;

#[derive(Default)]
pub struct Desk {
    /// One answer per `get_live_cell`, in order: an output and its data, or not live.
    pub live: Vec<Option<(packed::CellOutput, Bytes)>>,
    pub asked: usize,
    /// Set when the original opens its client: all checks before the chain have passed.
    pub opened: bool,
    /// The token's deps, if supplied.
    pub udt_deps: Option<Vec<packed::CellDep>>,
    pub now_ms: u64,
    /// What a transaction's hash is said to be, if lent.
    pub hash: Option<[u8; 32]>,
}
thread_local! { pub static DESK: RefCell<Desk> = RefCell::default(); }

#[derive(Debug)]
pub struct CkbChainMessage;

pub struct CellOutput(packed::CellOutput);
impl From<packed::CellOutput> for CellOutput {
    fn from(o: packed::CellOutput) -> Self {
        CellOutput(o)
    }
}
impl From<CellOutput> for packed::CellOutput {
    fn from(o: CellOutput) -> Self {
        o.0
    }
}
pub struct OutPoint(#[allow(dead_code)] packed::OutPoint);
impl From<packed::OutPoint> for OutPoint {
    fn from(o: packed::OutPoint) -> Self {
        OutPoint(o)
    }
}
pub struct JsonBytes(Bytes);
impl JsonBytes {
    pub fn into_bytes(self) -> Bytes {
        self.0
    }
}
pub struct CellData {
    pub content: JsonBytes,
}
pub struct CellInfo {
    pub output: CellOutput,
    pub data: Option<CellData>,
}
pub struct CellWithStatus {
    pub cell: Option<CellInfo>,
    pub status: String,
}
pub struct BlockNumber(u64);
impl From<u64> for BlockNumber {
    fn from(n: u64) -> Self {
        BlockNumber(n)
    }
}
impl From<BlockNumber> for u64 {
    fn from(n: BlockNumber) -> Self {
        n.0
    }
}
pub struct Client;
impl Client {
    pub async fn get_live_cell(&self, _: OutPoint, _: bool) -> Result<CellWithStatus, RpcError> {
        DESK.with_borrow_mut(|d| {
            let Some(answer) = d.live.get(d.asked).cloned() else { return Err(RpcError) };
            d.asked += 1;
            Ok(CellWithStatus {
                status: if answer.is_some() { "live" } else { "unknown" }.into(),
                cell: answer.map(|(o, b)| CellInfo { output: CellOutput(o), data: Some(CellData { content: JsonBytes(b) }) }),
            })
        })
    }
    pub async fn get_live_cell_with_include_tx_pool(&self, _: OutPoint, _: bool, _: bool) -> Result<CellWithStatus, RpcError> {
        Err(RpcError)
    }
    pub async fn get_block_by_number(&self, _: BlockNumber) -> Result<Option<BlockView>, RpcError> {
        Err(RpcError)
    }
    pub async fn get_tip_block_number(&self) -> Result<BlockNumber, RpcError> {
        Err(RpcError)
    }
}
pub mod config {
    use super::*;
    pub fn new_ckb_rpc_async_client(_: &str) -> Client {
        DESK.with_borrow_mut(|d| d.opened = true);
        Client
    }
    pub fn new_default_cell_collector(_: &str) -> NoCells {
        NoCells
    }
    pub fn new_default_header_dep_resolver(_: &str) -> Nothing {
        Nothing
    }
    pub async fn new_default_transaction_dependency_provider(_: &str, _: usize) -> Nothing {
        Nothing
    }
}
pub mod contracts {
    use super::*;
    pub async fn get_udt_cell_deps(_: &packed::Script) -> Result<packed::CellDepVec, ()> {
        DESK.with_borrow(|d| d.udt_deps.as_ref().map(|v| packed::List::of(v)).ok_or(()))
    }
}
