//! `ckb_sdk`: the collector's trait and the builder's errors for real; signing and balancing as names only.
use super::{bytes::Bytes, crates::anyhow, packed, view::TransactionView};
use std::{collections::HashMap, future::Future, pin::Pin};

pub type Later<'a, T> = Pin<Box<dyn Future<Output = T> + 'a>>;

macro_rules! plain_errors {
    ($($name:ident)*) => {$(
        #[derive(Debug)]
        pub struct $name;
        impl std::fmt::Display for $name {
            fn fmt(&self, f: &mut std::fmt::Formatter<'_>) -> std::fmt::Result { f.write_str(stringify!($name)) }
        }
        impl std::error::Error for $name {}
    )*};
}
plain_errors! { RpcError UnlockErr CollectorErr }
pub struct BlockView;

pub mod rpc {
    pub mod ckb_indexer {
        #[derive(Clone, Debug)]
        pub enum SearchMode {
            Exact,
        }
    }
}
pub mod traits {
    pub use super::CollectorErr as CellCollectorError;
    use super::*;
    #[derive(Clone, Debug)]
    pub struct ValueRangeOption(pub u64);
    impl ValueRangeOption {
        pub fn new_min(n: u64) -> Self {
            ValueRangeOption(n)
        }
    }
    #[derive(Clone, Debug)]
    pub struct CellQueryOptions {
        pub lock: packed::Script,
        pub script_search_mode: Option<rpc::ckb_indexer::SearchMode>,
        pub secondary_script: Option<packed::Script>,
        pub data_len_range: Option<ValueRangeOption>,
        pub min_total_capacity: u64,
    }
    impl CellQueryOptions {
        pub fn new_lock(lock: packed::Script) -> Self {
            CellQueryOptions { lock, script_search_mode: None, secondary_script: None, data_len_range: None, min_total_capacity: 1 }
        }
    }
    #[derive(Clone, Debug)]
    pub struct LiveCell {
        pub output: packed::CellOutput,
        pub output_data: Bytes,
        pub out_point: packed::OutPoint,
    }
    pub trait CellCollector {
        fn collect_live_cells_async<'a>(
            &'a mut self,
            query: &'a CellQueryOptions,
            apply_changes: bool,
        ) -> Later<'a, Result<(Vec<LiveCell>, u64), CellCollectorError>>;
        fn lock_cell(&mut self, out_point: packed::OutPoint, tip_block_number: u64) -> Result<(), CellCollectorError>;
        fn apply_tx(&mut self, tx: packed::Transaction, tip_block_number: u64) -> Result<(), CellCollectorError>;
        fn reset(&mut self);
    }
    pub trait CellDepResolver {
        fn resolve(&self, script: &packed::Script) -> Option<packed::CellDep>;
    }
    pub trait HeaderDepResolver {}
    pub trait TransactionDependencyProvider {}
    /// Knows what is lent.
    pub struct DefaultCellDepResolver(pub Option<packed::CellDep>);
    impl DefaultCellDepResolver {
        pub async fn from_genesis_async(_: &BlockView) -> Result<Self, ()> {
            Err(())
        }
        pub fn resolve(&self, _: &packed::Script) -> Option<packed::CellDep> {
            self.0.clone()
        }
    }
    pub struct SecpCkbRawKeySigner;
    impl SecpCkbRawKeySigner {
        pub fn new_with_secret_keys(_: Vec<u64>) -> Self {
            SecpCkbRawKeySigner
        }
    }
}
use traits::*;
pub struct Nothing;
impl HeaderDepResolver for Nothing {}
impl TransactionDependencyProvider for Nothing {}
/// An inner collector without cells.
#[derive(Clone)]
pub struct NoCells;
impl CellCollector for NoCells {
    fn collect_live_cells_async<'a>(&'a mut self, _: &'a CellQueryOptions, _: bool) -> Later<'a, Result<(Vec<LiveCell>, u64), CellCollectorError>> {
        Box::pin(async { Ok((vec![], 0)) })
    }
    fn lock_cell(&mut self, _: packed::OutPoint, _: u64) -> Result<(), CellCollectorError> {
        Ok(())
    }
    fn apply_tx(&mut self, _: packed::Transaction, _: u64) -> Result<(), CellCollectorError> {
        Ok(())
    }
    fn reset(&mut self) {}
}
pub mod constants {
    pub static SIGHASH_TYPE_HASH: [u8; 32] = [0; 32];
}
#[derive(PartialEq, Eq, Hash)]
pub struct ScriptId([u8; 32]);
impl ScriptId {
    pub fn new_type(h: [u8; 32]) -> Self {
        ScriptId(h)
    }
}
pub mod unlock {
    pub use super::UnlockErr as UnlockError;
    pub trait ScriptUnlocker {}
    pub struct SecpSighashUnlocker;
    impl ScriptUnlocker for SecpSighashUnlocker {}
    impl From<Box<super::traits::SecpCkbRawKeySigner>> for SecpSighashUnlocker {
        fn from(_: Box<super::traits::SecpCkbRawKeySigner>) -> Self {
            SecpSighashUnlocker
        }
    }
}
use unlock::*;
pub mod tx_builder {
    use super::*;
    #[derive(Debug)]
    pub enum TxBuilderError {
        InvalidParameter(anyhow::Error),
        CellCollector(CellCollectorError),
        ResolveCellDepFailed(packed::Script),
        Other(anyhow::Error),
    }
    impl std::fmt::Display for TxBuilderError {
        fn fmt(&self, f: &mut std::fmt::Formatter<'_>) -> std::fmt::Result {
            match self {
                Self::InvalidParameter(e) => write!(f, "invalid parameter: `{e}`"),
                Self::CellCollector(e) => write!(f, "cell collector error: `{e}`"),
                Self::ResolveCellDepFailed(s) => write!(f, "resolve cell dep failed: `{s:?}`"),
                Self::Other(e) => write!(f, "other error: `{e}`"),
            }
        }
    }
    impl std::error::Error for TxBuilderError {}
    impl From<CellCollectorError> for TxBuilderError {
        fn from(e: CellCollectorError) -> Self {
            TxBuilderError::CellCollector(e)
        }
    }
    pub struct CapacityBalancer;
    impl CapacityBalancer {
        pub fn new_simple(_: packed::Script, _: packed::WitnessArgs, _: u64) -> Self {
            CapacityBalancer
        }
    }
    pub trait TxBuilder {
        fn build_base_async<'a>(
            &'a self,
            cell_collector: &'a mut dyn CellCollector,
            cell_dep_resolver: &'a dyn CellDepResolver,
            header_dep_resolver: &'a dyn HeaderDepResolver,
            tx_dep_provider: &'a dyn TransactionDependencyProvider,
        ) -> Later<'a, Result<TransactionView, TxBuilderError>>;
        #[allow(clippy::too_many_arguments)]
        fn build_unlocked(
            &self,
            _: &mut dyn CellCollector,
            _: &dyn CellDepResolver,
            _: &dyn HeaderDepResolver,
            _: &dyn TransactionDependencyProvider,
            _: &CapacityBalancer,
            _: &HashMap<ScriptId, Box<dyn ScriptUnlocker>>,
        ) -> Result<(TransactionView, ()), TxBuilderError> {
            unimplemented!("balancing is outside")
        }
    }
    pub async fn unlock_tx_async(
        _: TransactionView,
        _: &dyn TransactionDependencyProvider,
        _: &HashMap<ScriptId, Box<dyn ScriptUnlocker>>,
    ) -> Result<(TransactionView, ()), UnlockError> {
        Err(UnlockErr)
    }
}
