//! The worst inputs known, entry by entry: see bench/hostile.
mod bases;
mod bytes;
mod chains;
mod claims;
pub mod clock;
mod exclusions;
mod holds;
mod reading;
mod replays;
pub mod report;
mod sorting;
mod updates;

use clock::Row;

pub fn rows() -> Vec<Row> {
    let rows = [updates::rows(), replays::rows(), bases::rows(), holds::rows(), exclusions::rows(), reading::rows(), claims::rows()];
    rows.into_iter().flatten().collect()
}
