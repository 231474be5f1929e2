//! What the kinds of the two tables of cells share: places of a table of holds, lists of out points, buffers that are written to.
use crate::library::BYTE;
use crate::parts::{damaged, point, sized_list};
use crate::random::Rng;
use oracle::calls::hex;
use oracle::original::Point;
use oracle::standins::molecule::{readable, word, OUT_POINTS};

/// Lent bytes, shown as hex.
#[derive(Clone)]
pub struct Lent(pub Vec<u8>);

impl std::ops::Deref for Lent {
    type Target = [u8];
    fn deref(&self) -> &[u8] {
        &self.0
    }
}
impl std::fmt::Debug for Lent {
    fn fmt(&self, f: &mut std::fmt::Formatter<'_>) -> std::fmt::Result {
        f.write_str(&hex(&self.0))
    }
}

/// An out point, a kind, a number.
#[derive(Clone, PartialEq)]
pub struct Place {
    pub point: Point,
    pub kind: u32,
    pub number: u64,
}

impl std::fmt::Debug for Place {
    fn fmt(&self, f: &mut std::fmt::Formatter<'_>) -> std::fmt::Result {
        write!(f, "{} {} {}", hex(&self.point), self.kind, self.number)
    }
}

const PLACE_BYTES: usize = 48;

/// The places of a table that stand: as many as its count says, if it has so many.
pub fn places(table: &[u8]) -> Vec<Place> {
    let read = |p: &[u8]| Place {
        point: p[..36].try_into().unwrap(),
        kind: u32::from_le_bytes(p[36..40].try_into().unwrap()),
        number: u64::from_le_bytes(p[40..].try_into().unwrap()),
    };
    table[4..].chunks_exact(PLACE_BYTES).take(word(table, 0)).map(read).collect()
}
/// A table of so many bytes, with anything beyond its places.
pub fn table(rng: &mut Rng, places: &[Place], length: usize) -> Vec<u8> {
    let mut t = (places.len() as u32).to_le_bytes().to_vec();
    for p in places {
        t.extend(p.point);
        t.extend(p.kind.to_le_bytes());
        t.extend(p.number.to_le_bytes());
    }
    let rest = length - t.len();
    let anything = if rng.once_in(2) { vec![0; rest] } else { rng.bytes(rest) };
    t.extend(anything);
    t
}
/// Whether the bytes beyond a table's places are as they were.
pub fn rest_kept(before: &[u8], after: &[u8]) -> bool {
    let used = 4 + PLACE_BYTES * places(after).len();
    before[used..] == after[used..]
}

/// The out points of a list, if it can be read.
pub fn read_points(list: &[u8]) -> Option<Vec<Point>> {
    readable(&OUT_POINTS, list).then(|| list[4..].chunks(36).map(|c| c.try_into().unwrap()).collect())
}
/// A list of some out points of a pool, which may have a point twice; damaged at times.
pub fn some_points(rng: &mut Rng, pool: usize) -> Lent {
    let most = rng.pick(&[0, 1, 2, 3, 3, 5, 5, 12, pool]);
    let n = rng.between(0, most.min(270));
    let from = rng.below(pool) as u32;
    let in_turn = rng.once_in(2);
    let which = |i, rng: &mut Rng| if in_turn { (from + i) % pool as u32 } else { rng.below(pool) as u32 };
    let points: Vec<Point> = (0..n as u32).map(|i| point(which(i, rng))).collect();
    let list = sized_list(&points);
    Lent(if rng.once_in(40) { damaged(rng, &list) } else { list })
}
/// Room for a list of so many out points, or of fewer, or of one with a byte missing.
pub fn room(rng: &mut Rng, most: usize) -> usize {
    match rng.below(12) {
        0 => 0,
        1 => 3,
        2 => 4 + 36 * rng.between(0, most),
        3 => 3 + 36 * rng.between(1, most + 1),
        _ => 4 + 36 * most + rng.below(3),
    }
}

/// A lent buffer.
pub struct Buffer(pub Vec<u8>);

impl Buffer {
    pub fn new(room: usize) -> Self {
        Buffer(vec![BYTE; room])
    }
    pub fn fits(room: usize, points: &[Point]) -> bool {
        4 + 36 * points.len() <= room.min(133_116)
    }
    /// Whether it has the list in front and is otherwise as it was.
    pub fn has(&self, points: &[Point]) -> bool {
        let list = sized_list(points);
        self.0.starts_with(&list) && self.0[list.len()..].iter().all(|b| *b == BYTE)
    }
    pub fn untouched(&self) -> bool {
        self.0.iter().all(|b| *b == BYTE)
    }
    /// The list that it has in front.
    pub fn points(&self) -> Option<Vec<Point>> {
        let n = (self.0.len() >= 4).then(|| word(&self.0, 0))?;
        read_points(self.0.get(..4 + 36 * n)?)
    }
    pub fn show(&self) -> String {
        self.points().map_or("no list".into(), |p| hex(&p.concat()))
    }
}
pub fn sorted(points: &[Point]) -> Vec<Point> {
    let mut v = points.to_vec();
    v.sort();
    v
}
