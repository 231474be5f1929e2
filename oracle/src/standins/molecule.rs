//! The strict Molecule reader of RFC 0008, driven by layouts, and the writers.
pub enum L {
    Fixed(usize),
    FixVec(usize),
    DynVec(&'static L),
    Table(&'static [L]),
    Opt(&'static L),
}
pub fn word(b: &[u8], at: usize) -> usize {
    u32::from_le_bytes(b[at..at + 4].try_into().unwrap()) as usize
}
/// The bounds of the parts of a table or dynamic vector: its offsets and the total size.
fn bounds(b: &[u8]) -> Option<Vec<usize>> {
    if b.len() < 4 || word(b, 0) != b.len() {
        return None;
    }
    if b.len() == 4 {
        return Some(vec![4]);
    }
    if b.len() < 8 {
        return None;
    }
    let first = word(b, 4);
    if !first.is_multiple_of(4) || first < 8 || first > b.len() {
        return None;
    }
    let mut v: Vec<usize> = (1..first / 4).map(|i| word(b, 4 * i)).collect();
    v.push(b.len());
    v.windows(2).all(|w| w[0] <= w[1]).then_some(v)
}
pub fn readable(l: &L, b: &[u8]) -> bool {
    match l {
        L::Fixed(n) => b.len() == *n,
        L::FixVec(n) => b.len() >= 4 && word(b, 0).checked_mul(*n).and_then(|x| x.checked_add(4)) == Some(b.len()),
        L::Opt(l) => b.is_empty() || readable(l, b),
        L::DynVec(l) => bounds(b).is_some_and(|v| v.windows(2).all(|w| readable(l, &b[w[0]..w[1]]))),
        L::Table(ls) => bounds(b).is_some_and(|v| v.len() == ls.len() + 1 && v.windows(2).zip(ls.iter()).all(|(w, l)| readable(l, &b[w[0]..w[1]]))),
    }
}
/// A part of a table or dynamic vector already read.
pub fn part(b: &[u8], i: usize) -> (usize, usize) {
    let n = count(b);
    (word(b, 4 + 4 * i), if i + 1 < n { word(b, 8 + 4 * i) } else { b.len() })
}
pub fn count(b: &[u8]) -> usize {
    if b.len() == 4 {
        0
    } else {
        word(b, 4) / 4 - 1
    }
}
pub fn write_table<B: AsRef<[u8]>>(parts: &[B]) -> Vec<u8> {
    let head = 4 + 4 * parts.len();
    let total = head + parts.iter().map(|p| p.as_ref().len()).sum::<usize>();
    let mut out = Vec::with_capacity(total);
    out.extend((total as u32).to_le_bytes());
    let mut at = head;
    for p in parts {
        out.extend((at as u32).to_le_bytes());
        at += p.as_ref().len();
    }
    parts.iter().for_each(|p| out.extend_from_slice(p.as_ref()));
    out
}
pub fn write_fixvec<B: AsRef<[u8]>>(items: &[B]) -> Vec<u8> {
    let mut out = (items.len() as u32).to_le_bytes().to_vec();
    items.iter().for_each(|p| out.extend_from_slice(p.as_ref()));
    out
}
pub static BYTES: L = L::FixVec(1);
pub static SCRIPT: L = L::Table(&[L::Fixed(32), L::Fixed(1), L::FixVec(1)]);
pub static OUTPUT: L =
    L::Table(&[L::Fixed(8), L::Table(&[L::Fixed(32), L::Fixed(1), L::FixVec(1)]), L::Opt(&L::Table(&[L::Fixed(32), L::Fixed(1), L::FixVec(1)]))]);
pub static TRANSACTION: L = L::Table(&[
    L::Table(&[
        L::Fixed(4),
        L::FixVec(37),
        L::FixVec(32),
        L::FixVec(44),
        L::DynVec(&L::Table(&[
            L::Fixed(8),
            L::Table(&[L::Fixed(32), L::Fixed(1), L::FixVec(1)]),
            L::Opt(&L::Table(&[L::Fixed(32), L::Fixed(1), L::FixVec(1)])),
        ])),
        L::DynVec(&L::FixVec(1)),
    ]),
    L::DynVec(&L::FixVec(1)),
]);
pub static RECORDS: L = L::DynVec(&L::Opt(&L::Table(&[
    L::Table(&[L::Fixed(8), L::Table(&[L::Fixed(32), L::Fixed(1), L::FixVec(1)]), L::Opt(&L::Table(&[L::Fixed(32), L::Fixed(1), L::FixVec(1)]))]),
    L::FixVec(1),
])));
/// Token cells: tables of out point and data.
pub static TOKEN_CELLS: L = L::DynVec(&L::Table(&[L::Fixed(36), L::FixVec(1)]));
pub static OUT_POINTS: L = L::FixVec(36);
pub static CELL_DEPS: L = L::FixVec(37);
/// A list of updates: tables of the peer's transaction, the records, the source lock, and the fee rate.
pub static UPDATES: L = L::DynVec(&L::Table(&[L::FixVec(1), L::FixVec(1), L::FixVec(1), L::Fixed(8)]));
