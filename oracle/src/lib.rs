//! The original Rust, unchanged, behind stand-ins for the crates that it uses; and its calls over plain bytes.
pub mod calls;
pub mod case;
pub mod original;
pub mod selftest;
pub mod standins;

#[allow(dead_code, unused, clippy::all)]
mod reference {
    include!(concat!(env!("OUT_DIR"), "/reference.rs"));
}
pub use reference::SOURCES;
/// The original's files as they are compiled, to find a line by its number.
const REFERENCE: &str = include_str!(concat!(env!("OUT_DIR"), "/reference.rs"));

// The original names itself crate::ckb and crate::now_timestamp_as_millis_u64.
use reference::ckb;
fn now_timestamp_as_millis_u64() -> u64 {
    standins::chain::DESK.with_borrow(|d| d.now_ms)
}
