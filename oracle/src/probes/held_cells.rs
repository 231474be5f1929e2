// Child of held_cells: sees its private items.
use super::*;

pub fn reset() {
    *HELD.lock().unwrap() = Held::default();
}
pub fn load(funding: impl Iterator<Item = (u64, Vec<OutPoint>)>, watchtower: impl Iterator<Item = (OutPoint, u64)>) {
    *HELD.lock().unwrap() = Held { funding: funding.collect(), watchtower: watchtower.collect() };
}
/// All records: holder and out point, then out point and end.
pub fn dump() -> (Vec<(u64, OutPoint)>, Vec<(OutPoint, u64)>) {
    let held = HELD.lock().unwrap();
    (
        held.funding.iter().flat_map(|(h, v)| v.iter().map(|o| (*h, o.clone()))).collect(),
        held.watchtower.iter().map(|(o, t)| (o.clone(), *t)).collect(),
    )
}
pub fn look(picked: &[OutPoint], spent: &HashSet<OutPoint>, now_ms: u64) -> HashSet<OutPoint> {
    unavailable(picked.iter(), spent, now_ms)
}
