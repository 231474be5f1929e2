//! Cell deps that were made to meet: all of them in one chain of crates/item_lookup, whose digest stands here again.
use super::bytes::Hashes;

type Dep = [u8; 37];

fn spread(x: u64) -> u64 {
    ((x % (1 << 32)) * 2_654_435_761).wrapping_add((x >> 32) * 3_266_489_917)
}
fn word(dep: &Dep, at: usize) -> u64 {
    u64::from_le_bytes(dep[at..at + 8].try_into().expect("8 bytes"))
}
fn chain_of(dep: &Dep) -> u64 {
    spread([0, 8, 16, 24, 29].iter().fold(0, |sum, at| spread(sum ^ word(dep, *at)))) >> 51
}

/// Distinct deps of one chain.
pub fn deps(hashes: Hashes, n: usize) -> Vec<Dep> {
    (0..).map(|i| hashes.dep(i)).filter(|dep| chain_of(dep) == 0).take(n).collect()
}
