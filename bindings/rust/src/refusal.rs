//! Why a call is refused.
use std::fmt;

/// Why a call is refused: a case for each number, and for two of them the values that belong to it.
///
/// Nothing has changed after a refusal: the transaction in force and every table are as they were.
///
/// ```
/// use basinpantry::Refusal;
///
/// let why = Refusal::PeerFundingFeeTooLow { peer_fee: 204, required_fee: 205, funding_fee_rate: 1000, tx_size: 205 };
/// assert_eq!(why.number(), 8);
/// assert_eq!(why.values(), [204, 205, 1000, 205]);
/// assert_eq!(
///     why.to_string(),
///     "the fee is too low: 204 shannons are paid and 205 are required, at a rate of 1000 shannons per 1000 bytes and a size of 205 bytes"
/// );
/// ```
///
/// More numbers may come, so a `match` on it needs an arm for the rest.
#[derive(Clone, Copy, Debug, PartialEq, Eq, Hash)]
#[non_exhaustive]
pub enum Refusal {
    /// 1: our own transaction's bytes are no transaction.
    OurTransactionUnreadable,
    /// 2: the peer's bytes are no transaction.
    PeerTransactionUnreadable,
    /// 3: a lent script, list, record, hash or table is unreadable, the records are not one for each added input, or there is no such list or item.
    LentBytesUnreadable,
    /// 4: the peer's transaction is over the size limit, or adds too many inputs, outputs, cell deps or header deps.
    PeerFundingTxExceedsLimit,
    /// 5: the peer's funding transaction is invalid.
    InvalidPeerFundingTx,
    /// 6: an input that the peer added spends a cell under our own source lock.
    PeerInputUsesOurFundingLock {
        /// Its index among all inputs.
        input_index: u64,
    },
    /// 7: a figure, or a sum of figures, is too wide.
    OverflowError,
    /// 8: the fee is too low.
    PeerFundingFeeTooLow {
        /// The fee that is paid, in shannons.
        peer_fee: u64,
        /// The fee that is required, in shannons.
        required_fee: u64,
        /// The fee rate, in shannons per 1000 bytes.
        funding_fee_rate: u64,
        /// The size of the peer's transaction in a block: its bytes and 4.
        tx_size: u64,
    },
    /// 9: the token cells ended before their total reached the wanted amount.
    InsufficientCells,
    /// 10: the total of the picked token cells is 2^128 or more.
    TokenTotalOverflow,
    /// 11: tokens were picked, and the token's cell deps or the lock's were not supplied.
    MissingCellDep,
    /// 12: a token cell's data is under 16 bytes.
    TokenCellDataTooShort,
    /// 13: the result is over the lent buffer, or over 133,116 bytes.
    BufferTooShort,
    /// 14: the call would leave more than 256 hold records.
    TooManyHolds,
    /// 15: the call would leave more than 64 excluded transactions or 512 out points.
    TooManyExclusions,
}

impl Refusal {
    /// The refusal of a number and its values; the values beyond those that it carries are not looked at.
    ///
    /// ```
    /// use basinpantry::Refusal;
    ///
    /// assert_eq!(Refusal::from_number(6, [2, 0, 0, 0]), Some(Refusal::PeerInputUsesOurFundingLock { input_index: 2 }));
    /// assert_eq!(Refusal::from_number(0, [0; 4]), None);
    /// assert_eq!(Refusal::from_number(256, [0; 4]), None);
    /// ```
    pub fn from_number(number: u32, values: [u64; 4]) -> Option<Refusal> {
        Some(match number {
            1 => Refusal::OurTransactionUnreadable,
            2 => Refusal::PeerTransactionUnreadable,
            3 => Refusal::LentBytesUnreadable,
            4 => Refusal::PeerFundingTxExceedsLimit,
            5 => Refusal::InvalidPeerFundingTx,
            6 => Refusal::PeerInputUsesOurFundingLock { input_index: values[0] },
            7 => Refusal::OverflowError,
            8 => Refusal::PeerFundingFeeTooLow {
                peer_fee: values[0],
                required_fee: values[1],
                funding_fee_rate: values[2],
                tx_size: values[3],
            },
            9 => Refusal::InsufficientCells,
            10 => Refusal::TokenTotalOverflow,
            11 => Refusal::MissingCellDep,
            12 => Refusal::TokenCellDataTooShort,
            13 => Refusal::BufferTooShort,
            14 => Refusal::TooManyHolds,
            15 => Refusal::TooManyExclusions,
            _ => return None,
        })
    }

    /// Its number, below 256.
    ///
    /// ```
    /// assert_eq!(basinpantry::Refusal::TooManyHolds.number(), 14);
    /// ```
    pub fn number(&self) -> u32 {
        match self {
            Refusal::OurTransactionUnreadable => 1,
            Refusal::PeerTransactionUnreadable => 2,
            Refusal::LentBytesUnreadable => 3,
            Refusal::PeerFundingTxExceedsLimit => 4,
            Refusal::InvalidPeerFundingTx => 5,
            Refusal::PeerInputUsesOurFundingLock { .. } => 6,
            Refusal::OverflowError => 7,
            Refusal::PeerFundingFeeTooLow { .. } => 8,
            Refusal::InsufficientCells => 9,
            Refusal::TokenTotalOverflow => 10,
            Refusal::MissingCellDep => 11,
            Refusal::TokenCellDataTooShort => 12,
            Refusal::BufferTooShort => 13,
            Refusal::TooManyHolds => 14,
            Refusal::TooManyExclusions => 15,
        }
    }

    /// Its name, as here.
    ///
    /// ```
    /// assert_eq!(basinpantry::Refusal::TooManyHolds.name(), "TooManyHolds");
    /// ```
    pub fn name(&self) -> &'static str {
        match self {
            Refusal::OurTransactionUnreadable => "OurTransactionUnreadable",
            Refusal::PeerTransactionUnreadable => "PeerTransactionUnreadable",
            Refusal::LentBytesUnreadable => "LentBytesUnreadable",
            Refusal::PeerFundingTxExceedsLimit => "PeerFundingTxExceedsLimit",
            Refusal::InvalidPeerFundingTx => "InvalidPeerFundingTx",
            Refusal::PeerInputUsesOurFundingLock { .. } => "PeerInputUsesOurFundingLock",
            Refusal::OverflowError => "OverflowError",
            Refusal::PeerFundingFeeTooLow { .. } => "PeerFundingFeeTooLow",
            Refusal::InsufficientCells => "InsufficientCells",
            Refusal::TokenTotalOverflow => "TokenTotalOverflow",
            Refusal::MissingCellDep => "MissingCellDep",
            Refusal::TokenCellDataTooShort => "TokenCellDataTooShort",
            Refusal::BufferTooShort => "BufferTooShort",
            Refusal::TooManyHolds => "TooManyHolds",
            Refusal::TooManyExclusions => "TooManyExclusions",
        }
    }

    /// The names of the values that it carries, in the order of [`values`](Refusal::values).
    ///
    /// ```
    /// assert_eq!(basinpantry::Refusal::PeerInputUsesOurFundingLock { input_index: 2 }.value_names(), ["input_index"]);
    /// ```
    pub fn value_names(&self) -> &'static [&'static str] {
        match self {
            Refusal::PeerInputUsesOurFundingLock { .. } => &["input_index"],
            Refusal::PeerFundingFeeTooLow { .. } => &["peer_fee", "required_fee", "funding_fee_rate", "tx_size"],
            _ => &[],
        }
    }

    /// Its sentence, which the header for C has too.
    ///
    /// ```
    /// assert_eq!(basinpantry::Refusal::TooManyHolds.sentence(), "the call would leave more than 256 hold records");
    /// ```
    pub fn sentence(&self) -> &'static str {
        match self {
            Refusal::OurTransactionUnreadable => "our own transaction's bytes are no transaction",
            Refusal::PeerTransactionUnreadable => "the peer's bytes are no transaction",
            Refusal::LentBytesUnreadable => {
                "a lent script, list, record, hash or table is unreadable, the records are not one for each added input, \
                 or there is no such list or item"
            }
            Refusal::PeerFundingTxExceedsLimit => {
                "the peer's transaction is over the size limit, or adds too many inputs, outputs, cell deps or header deps"
            }
            Refusal::InvalidPeerFundingTx => "the peer's funding transaction is invalid",
            Refusal::PeerInputUsesOurFundingLock { .. } => "an input that the peer added spends a cell under our own source lock",
            Refusal::OverflowError => "a figure, or a sum of figures, is too wide",
            Refusal::PeerFundingFeeTooLow { .. } => "the fee is too low",
            Refusal::InsufficientCells => "the token cells ended before their total reached the wanted amount",
            Refusal::TokenTotalOverflow => "the total of the picked token cells is 2^128 or more",
            Refusal::MissingCellDep => "tokens were picked, and the token's cell deps or the lock's were not supplied",
            Refusal::TokenCellDataTooShort => "a token cell's data is under 16 bytes",
            Refusal::BufferTooShort => "the result is over the lent buffer, or over 133,116 bytes",
            Refusal::TooManyHolds => "the call would leave more than 256 hold records",
            Refusal::TooManyExclusions => "the call would leave more than 64 excluded transactions or 512 out points",
        }
    }

    /// The values that it carries, in the order of the verdict line.
    ///
    /// ```
    /// use basinpantry::Refusal;
    ///
    /// assert_eq!(Refusal::PeerInputUsesOurFundingLock { input_index: 2 }.values(), [2]);
    /// assert!(Refusal::OverflowError.values().is_empty());
    /// ```
    pub fn values(&self) -> Vec<u64> {
        match *self {
            Refusal::PeerInputUsesOurFundingLock { input_index } => vec![input_index],
            Refusal::PeerFundingFeeTooLow { peer_fee, required_fee, funding_fee_rate, tx_size } => {
                vec![peer_fee, required_fee, funding_fee_rate, tx_size]
            }
            _ => Vec::new(),
        }
    }
}

impl fmt::Display for Refusal {
    /// Its sentence, and the values that it carries.
    fn fmt(&self, f: &mut fmt::Formatter<'_>) -> fmt::Result {
        f.write_str(self.sentence())?;
        match self {
            Refusal::PeerInputUsesOurFundingLock { input_index } => write!(f, ": input {input_index}"),
            Refusal::PeerFundingFeeTooLow { peer_fee, required_fee, funding_fee_rate, tx_size } => write!(
                f,
                ": {peer_fee} shannons are paid and {required_fee} are required, \
                 at a rate of {funding_fee_rate} shannons per 1000 bytes and a size of {tx_size} bytes"
            ),
            _ => Ok(()),
        }
    }
}

impl std::error::Error for Refusal {}

#[cfg(test)]
mod tests {
    use super::Refusal;

    #[test]
    fn every_number_is_one_case() {
        for number in 1..=255 {
            let Some(why) = Refusal::from_number(number, [1, 2, 3, 4]) else { continue };
            assert_eq!(why.number(), number);
            let count = match number {
                6 => 1,
                8 => 4,
                _ => 0,
            };
            assert_eq!(why.values(), [1, 2, 3, 4][..count]);
            assert_eq!(why.value_names().len(), count);
            // the names are those of the case
            let debug = format!("{why:?}");
            assert!(debug.starts_with(why.name()) && why.value_names().iter().all(|name| debug.contains(&format!(" {name}: "))), "{debug}");
            // the sentence, and after a colon the values
            let text = why.to_string();
            let rest = text.strip_prefix(why.sentence()).expect("the sentence first");
            assert!(if count == 0 { rest.is_empty() } else { rest.starts_with(": ") }, "{text}");
            assert!(why.values().iter().all(|value| rest.contains(&value.to_string())), "{text}");
        }
        assert_eq!(Refusal::from_number(0, [0; 4]), None);
        assert_eq!(Refusal::from_number(256, [0; 4]), None);
    }
}
