//! A list of updates.
use crate::refusal::Refusal;
use crate::total::Total;
use crate::update::accepted;
use crate::update::{Accepted, PeerUpdate};
use crate::{ffi, molecule};

/// How many words the answer to an update has: its number and four values.
const ANSWER_WORDS: usize = 5;

/// What a list of updates comes to.
///
/// ```
/// assert!(basinpantry::Replay::default().answers.is_empty());
/// ```
#[derive(Clone, Debug, Default, PartialEq, Eq)]
pub struct Replay {
    /// The answer to each update.
    pub answers: Vec<Result<Accepted, Refusal>>,
    /// Which update's transaction is then in force; none: the one at the start, if there was one.
    pub in_force: Option<usize>,
    /// The sum of the capacity surpluses, in shannons, added here in plain Rust.
    pub capacity: Total,
    /// The sum of the token surpluses, likewise.
    pub token: Total,
}

/// Judges a list of updates, each against the transaction that the one before it left in force, from a transaction at the start, if there is one, and under one
/// expected funding lock and token type, if the channel has one. An update that is refused is an answer like any other.
///
/// The call itself is refused, before any update is judged, only with 3, where the updates are too long for one list: 2^32 bytes or more in all.
///
/// ```
/// use basinpantry::*;
///
/// let lock = Script::default().to_bytes();
/// let update = PeerUpdate { peer: b"no transaction", records: &write_records(&[]), source: &lock, rate: 1000 };
/// let replayed = replay(None, &lock, None, &[update]).unwrap();
/// assert_eq!(replayed.answers, [Err(Refusal::PeerTransactionUnreadable)]);
/// assert_eq!(replayed.in_force, None);
/// ```
pub fn replay(start: Option<&[u8]>, lock: &[u8], udt: Option<&[u8]>, updates: &[PeerUpdate]) -> Result<Replay, Refusal> {
    let items: Vec<Vec<u8>> = updates
        .iter()
        .map(|update| {
            let [peer, records, source] = [update.peer, update.records, update.source].map(molecule::bytes);
            molecule::table(&[&peer[..], &records, &source, &update.rate.to_le_bytes()])
        })
        .collect();
    let mut words = vec![0; ANSWER_WORDS * updates.len()];
    let [_, _, in_force, _] = ffi::replay(molecule::option(start), lock, molecule::option(udt), &molecule::table(&items), &mut words)?;
    let answers: Vec<Result<Accepted, Refusal>> = words
        .chunks_exact(ANSWER_WORDS)
        .map(|words| {
            let number = u32::try_from(words[0]).expect("the first word of an answer is 0 or the number of a refusal");
            ffi::answer(number, [words[1], words[2], words[3], words[4]]).map(accepted)
        })
        .collect();
    let accepted = || answers.iter().flatten();
    Ok(Replay {
        in_force: ffi::size(in_force).checked_sub(1),
        capacity: accepted().map(|accepted| accepted.capacity).sum(),
        token: accepted().map(|accepted| accepted.token).sum(),
        answers,
    })
}
