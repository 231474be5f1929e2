//! Calls of the original over plain values: what it fetches is lent by the caller through the stand-ins.
pub mod exclusions;
pub mod holds;
pub mod panics;
pub mod parsed;
pub mod request;
pub mod update;

use crate::ckb::FundingError;
use crate::standins::packed::OutPoint;
use crate::standins::sdk::tx_builder::TxBuilderError;

/// An out point's bytes.
pub type Point = [u8; 36];

pub fn point(p: &Point) -> OutPoint {
    OutPoint::read(p).unwrap()
}
pub fn plain(o: &OutPoint) -> Point {
    o.as_slice().try_into().unwrap()
}

/// A refusal by the number that the table of the rules gives it, and its values.
#[derive(Clone, Debug, PartialEq)]
pub struct Refusal(pub u8, pub Vec<u64>);

impl From<&FundingError> for Refusal {
    fn from(e: &FundingError) -> Self {
        use TxBuilderError::{Other, ResolveCellDepFailed};
        let overflow = FundingError::OverflowError.to_string();
        let (n, v) = match e {
            FundingError::PeerFundingTxExceedsLimit(_) => (4, vec![]),
            FundingError::InvalidPeerFundingTx => (5, vec![]),
            FundingError::PeerInputUsesOurFundingLock { input_index } => (6, vec![*input_index as u64]),
            FundingError::OverflowError => (7, vec![]),
            FundingError::PeerFundingFeeTooLow { peer_fee, required_fee, funding_fee_rate, tx_size } => {
                (8, vec![*peer_fee, *required_fee, *funding_fee_rate, *tx_size])
            }
            FundingError::InsufficientCells(_) => (9, vec![]),
            FundingError::CkbTxBuilderError(Other(x)) if x.0 == "UDT amount overflow" => (10, vec![]),
            FundingError::CkbTxBuilderError(ResolveCellDepFailed(_)) => (11, vec![]),
            FundingError::CkbTxBuilderError(Other(x)) if x.0 == overflow => (7, vec![]),
            e => panic!("no number: {e:?}"),
        };
        Refusal(n, v)
    }
}
impl std::fmt::Display for Refusal {
    fn fmt(&self, f: &mut std::fmt::Formatter<'_>) -> std::fmt::Result {
        write!(f, "{}", self.0)?;
        self.1.iter().try_for_each(|x| write!(f, " {x}"))
    }
}
