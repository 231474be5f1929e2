//! A peer's update, and a list of them.
use crate::reason::reason;
use crate::refusal::Refusal;
use crate::total::Total;
use crate::{ffi, molecule};

/// What an accepted update leaves over: what the added inputs brought in, less the growth of output 0 and the outputs that were added after it.
///
/// ```
/// let accepted = basinpantry::Accepted { capacity: 205, token: 0 };
/// assert_eq!(accepted.to_string(), "a surplus of 205 shannons and 0 tokens");
/// ```
#[derive(Clone, Copy, Debug, Default, PartialEq, Eq, Hash)]
pub struct Accepted {
    /// The capacity surplus, in shannons; for an opening update this pays the fee.
    pub capacity: u128,
    /// The token surplus, 0 where no token is expected.
    pub token: u128,
}

impl std::fmt::Display for Accepted {
    fn fmt(&self, f: &mut std::fmt::Formatter<'_>) -> std::fmt::Result {
        write!(f, "a surplus of {} shannons and {} tokens", self.capacity, self.token)
    }
}

/// The figures of four words: each low half first.
pub(crate) fn accepted(values: [u64; 4]) -> Accepted {
    let [capacity_low, capacity_high, token_low, token_high] = values;
    Accepted { capacity: whole(capacity_low, capacity_high), token: whole(token_low, token_high) }
}

/// A number of two halves.
pub(crate) fn whole(low: u64, high: u64) -> u128 {
    u128::from(high) << 64 | u128::from(low)
}

/// Judges an update of the peer's against our transaction, if there is one, under the expected funding lock and the expected token type, if the channel has one.
///
/// An added input whose out point stands earlier among the peer's inputs is not refused, and its record is counted again, as in the original, though the chain
/// takes no such transaction.
///
/// After an acceptance the peer's transaction is in force, after a refusal ours ([`Negotiation`] keeps it). Refused: 1, 2, 3 (a script), 4, 5 (compared with ours),
/// 3 (the records), 5 and 6 (input by input), 5 (output 0, and the capacity), 8, 5 and 7 (the tokens).
///
/// ```
/// use basinpantry::*;
///
/// let lock = Script::default();
/// let source = Script { code_hash: H256([1; 32]), ..Script::default() };
/// let output = CellOutput { capacity: 10_000_000_000, lock: lock.clone(), type_: None };
/// let peer = Transaction {
///     inputs: vec![CellInput::default()],
///     outputs: vec![output.clone()],
///     outputs_data: vec![vec![]],
///     ..Transaction::default()
/// };
/// let judge = |brought_in| {
///     let cell = ResolvedCell { output: CellOutput { capacity: brought_in, ..output.clone() }, data: vec![] };
///     let records = write_records(&[Some(cell)]);
///     let update = PeerUpdate { peer: &peer.to_bytes(), records: &records, source: &source.to_bytes(), rate: 1000 };
///     update_for_peer(None, &lock.to_bytes(), None, &update)
/// };
/// assert_eq!(judge(10_000_000_205), Ok(Accepted { capacity: 205, token: 0 }));
/// assert_eq!(
///     judge(10_000_000_204),
///     Err(Refusal::PeerFundingFeeTooLow { peer_fee: 204, required_fee: 205, funding_fee_rate: 1000, tx_size: 205 })
/// );
/// ```
pub fn update_for_peer(ours: Option<&[u8]>, lock: &[u8], udt: Option<&[u8]>, update: &PeerUpdate) -> Result<Accepted, Refusal> {
    let PeerUpdate { peer, records, source, rate } = *update;
    ffi::update_for_peer(molecule::option(ours), peer, lock, molecule::option(udt), source, rate, records).map(accepted)
}

/// An update that a peer proposes, with what is needed to judge it beside our transaction and the expected scripts.
///
/// ```
/// let update = basinpantry::PeerUpdate { peer: &[], records: &[4, 0, 0, 0], source: &[], rate: 1000 };
/// assert_eq!(update.rate, 1000);
/// ```
#[derive(Clone, Copy, Debug, PartialEq, Eq, Hash)]
pub struct PeerUpdate<'a> {
    /// The peer's transaction.
    pub peer: &'a [u8],
    /// One record for each input that it adds ([`write_records`](crate::write_records)); of a cell that is spent twice each record is counted.
    pub records: &'a [u8],
    /// Our source lock.
    pub source: &'a [u8],
    /// The fee rate, in shannons per 1000 bytes.
    pub rate: u64,
}

/// A negotiation under one expected lock and type: the transaction in force, and the sums of the surpluses of the updates accepted so far.
///
/// It is proved of any list of updates that the surpluses which the library reports sum to exactly the surplus of the transaction in force against the one at
/// the start. The adding is done here ([`Total`]), in plain Rust, and is tested.
///
/// ```
/// use basinpantry::*;
///
/// let lock = Script::default();
/// let source = Script { code_hash: H256([1; 32]), ..Script::default() }.to_bytes();
/// let output = CellOutput { capacity: 10_000_000_000, lock: lock.clone(), type_: None };
/// let peer = Transaction {
///     inputs: vec![CellInput::default()],
///     outputs: vec![output.clone()],
///     outputs_data: vec![vec![]],
///     ..Transaction::default()
/// };
/// let cell = ResolvedCell { output: CellOutput { capacity: 10_000_000_205, ..output }, data: vec![] };
/// let records = write_records(&[Some(cell)]);
///
/// let mut negotiation = Negotiation::new(None, &lock.to_bytes(), None);
/// let update = PeerUpdate { peer: &peer.to_bytes(), records: &records, source: &source, rate: 1000 };
/// assert_eq!(negotiation.update(&update), Ok(Accepted { capacity: 205, token: 0 }));
/// assert_eq!(negotiation.in_force(), Some(&peer.to_bytes()[..]));
/// // the same again adds no input, so there is no record to lend
/// assert_eq!(negotiation.update(&update), Err(Refusal::LentBytesUnreadable));
/// assert_eq!(negotiation.update(&PeerUpdate { records: &write_records(&[]), ..update }), Ok(Accepted { capacity: 0, token: 0 }));
/// assert_eq!(negotiation.capacity().to_u128(), Some(205));
/// assert_eq!(negotiation.accepted(), 2);
/// ```
#[derive(Clone, Debug, PartialEq, Eq)]
pub struct Negotiation {
    in_force: Option<Vec<u8>>,
    lock: Vec<u8>,
    udt: Option<Vec<u8>>,
    capacity: Total,
    token: Total,
    accepted: usize,
}

impl Negotiation {
    /// A negotiation from a transaction, if there is one, under the expected funding lock and the expected token type, if the channel has one.
    ///
    /// ```
    /// assert_eq!(basinpantry::Negotiation::new(None, &[], None).in_force(), None);
    /// ```
    pub fn new(start: Option<&[u8]>, lock: &[u8], udt: Option<&[u8]>) -> Negotiation {
        Negotiation {
            in_force: start.map(<[u8]>::to_vec),
            lock: lock.to_vec(),
            udt: udt.map(<[u8]>::to_vec),
            capacity: Total::ZERO,
            token: Total::ZERO,
            accepted: 0,
        }
    }

    /// Judges an update against the transaction in force, as [`update_for_peer`] does. A refusal changes nothing.
    ///
    /// ```
    /// use basinpantry::*;
    ///
    /// let mut negotiation = Negotiation::new(None, &Script::default().to_bytes(), None);
    /// let update = PeerUpdate { peer: b"no transaction", records: &[4, 0, 0, 0], source: &Script::default().to_bytes(), rate: 1000 };
    /// assert_eq!(negotiation.update(&update), Err(Refusal::PeerTransactionUnreadable));
    /// assert_eq!(negotiation.in_force(), None);
    /// ```
    pub fn update(&mut self, update: &PeerUpdate) -> Result<Accepted, Refusal> {
        let accepted = update_for_peer(self.in_force.as_deref(), &self.lock, self.udt.as_deref(), update)?;
        self.in_force = Some(update.peer.to_vec());
        self.capacity += accepted.capacity;
        self.token += accepted.token;
        self.accepted = self.accepted.saturating_add(1);
        Ok(accepted)
    }

    /// Which of the checks under its number refused an update that [`update`](Negotiation::update) was called with ([`reason()`](crate::reason())).
    ///
    /// ```
    /// use basinpantry::*;
    ///
    /// let script = Script::default().to_bytes();
    /// let mut negotiation = Negotiation::new(None, &script, None);
    /// let peer = Transaction { version: 1, ..Transaction::default() }.to_bytes();
    /// let update = PeerUpdate { peer: &peer, records: &write_records(&[]), source: &script, rate: 1000 };
    /// let why = negotiation.update(&update).unwrap_err();
    /// assert_eq!(negotiation.reason(&update, &why).unwrap(), "its version is 1, and ours is 0");
    /// ```
    pub fn reason(&self, update: &PeerUpdate, why: &Refusal) -> Option<String> {
        reason(self.in_force.as_deref(), &self.lock, self.udt.as_deref(), update, why)
    }

    /// The transaction in force: the peer's of the last accepted update, or the one at the start, if there was one.
    ///
    /// ```
    /// assert_eq!(basinpantry::Negotiation::new(Some(&[1, 2]), &[], None).in_force(), Some(&[1, 2][..]));
    /// ```
    pub fn in_force(&self) -> Option<&[u8]> {
        self.in_force.as_deref()
    }

    /// The sum of the capacity surpluses, in shannons.
    ///
    /// ```
    /// assert_eq!(basinpantry::Negotiation::new(None, &[], None).capacity(), basinpantry::Total::ZERO);
    /// ```
    pub fn capacity(&self) -> Total {
        self.capacity
    }

    /// The sum of the token surpluses.
    ///
    /// ```
    /// assert_eq!(basinpantry::Negotiation::new(None, &[], None).token(), basinpantry::Total::ZERO);
    /// ```
    pub fn token(&self) -> Total {
        self.token
    }

    /// How many updates were accepted.
    ///
    /// ```
    /// assert_eq!(basinpantry::Negotiation::new(None, &[], None).accepted(), 0);
    /// ```
    pub fn accepted(&self) -> usize {
        self.accepted
    }
}
