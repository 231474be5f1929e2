//! Sums of surpluses.
use std::fmt;
use std::iter::Sum;
use std::ops::AddAssign;

/// A sum of 128-bit figures, which may pass 2^128: there is room for 2^64 of them.
///
/// ```
/// use basinpantry::Total;
///
/// let total = Total::from(u128::MAX).saturating_add(Total::from(1));
/// assert_eq!(total.to_u128(), None);
/// assert_eq!(total.to_string(), "340282366920938463463374607431768211456");
/// assert_eq!(total.checked_sub(Total::from(7)), Some(Total::from(u128::MAX - 6)));
/// ```
#[derive(Clone, Copy, Debug, Default, PartialEq, Eq, PartialOrd, Ord, Hash)]
pub struct Total {
    // compared first
    high: u64,
    low: u128,
}

impl Total {
    /// The sum of nothing.
    pub const ZERO: Total = Total { high: 0, low: 0 };

    /// The sum of both; the greatest total, 2^192 - 1, where it would be above that, which takes more than 2^64 figures.
    ///
    /// ```
    /// use basinpantry::Total;
    ///
    /// assert_eq!(Total::from(2).saturating_add(Total::from(3)).to_u128(), Some(5));
    /// ```
    #[must_use]
    pub fn saturating_add(self, other: Total) -> Total {
        let (low, carry) = self.low.overflowing_add(other.low);
        match self.high.checked_add(other.high).and_then(|high| high.checked_add(carry.into())) {
            Some(high) => Total { high, low },
            None => Total { high: u64::MAX, low: u128::MAX },
        }
    }

    /// What is left; none where that would be negative.
    ///
    /// ```
    /// use basinpantry::Total;
    ///
    /// assert_eq!(Total::from(3).checked_sub(Total::from(2)), Some(Total::from(1)));
    /// assert_eq!(Total::from(2).checked_sub(Total::from(3)), None);
    /// ```
    pub fn checked_sub(self, other: Total) -> Option<Total> {
        let (low, borrow) = self.low.overflowing_sub(other.low);
        let high = self.high.checked_sub(other.high)?.checked_sub(borrow.into())?;
        Some(Total { high, low })
    }

    /// The sum as a number of 128 bits, if it is one.
    ///
    /// ```
    /// assert_eq!(basinpantry::Total::ZERO.to_u128(), Some(0));
    /// ```
    pub fn to_u128(self) -> Option<u128> {
        (self.high == 0).then_some(self.low)
    }
}

impl From<u128> for Total {
    fn from(low: u128) -> Total {
        Total { high: 0, low }
    }
}

/// Adds as [`saturating_add`](Total::saturating_add) does.
impl AddAssign for Total {
    fn add_assign(&mut self, other: Total) {
        *self = self.saturating_add(other);
    }
}

impl AddAssign<u128> for Total {
    fn add_assign(&mut self, figure: u128) {
        *self += Total::from(figure);
    }
}

impl Sum for Total {
    fn sum<I: Iterator<Item = Total>>(totals: I) -> Total {
        totals.fold(Total::ZERO, Total::saturating_add)
    }
}

impl<'a> Sum<&'a Total> for Total {
    fn sum<I: Iterator<Item = &'a Total>>(totals: I) -> Total {
        totals.copied().sum()
    }
}

impl Sum<u128> for Total {
    fn sum<I: Iterator<Item = u128>>(figures: I) -> Total {
        figures.map(Total::from).sum()
    }
}

/// A total that is no number of 128 bits.
///
/// ```
/// use basinpantry::{Total, TotalTooWide};
///
/// let total: Total = [u128::MAX, 1].into_iter().sum();
/// assert_eq!(u128::try_from(total), Err(TotalTooWide(total)));
/// assert_eq!(TotalTooWide(total).to_string(), "340282366920938463463374607431768211456 is 2^128 or more");
/// ```
#[derive(Clone, Copy, Debug, PartialEq, Eq, Hash)]
pub struct TotalTooWide(
    /// The total.
    pub Total,
);

impl fmt::Display for TotalTooWide {
    fn fmt(&self, f: &mut fmt::Formatter<'_>) -> fmt::Result {
        write!(f, "{} is 2^128 or more", self.0)
    }
}

impl std::error::Error for TotalTooWide {}

impl TryFrom<Total> for u128 {
    type Error = TotalTooWide;

    fn try_from(total: Total) -> Result<u128, TotalTooWide> {
        total.to_u128().ok_or(TotalTooWide(total))
    }
}

/// As CKB's JSON has numbers, with `{:#x}`.
///
/// ```
/// use basinpantry::Total;
///
/// assert_eq!(format!("{:#x}", Total::from(205)), "0xcd");
/// assert_eq!(format!("{:#x}", [u128::MAX, 2].into_iter().sum::<Total>()), format!("0x1{:032x}", 1));
/// ```
impl fmt::LowerHex for Total {
    fn fmt(&self, f: &mut fmt::Formatter<'_>) -> fmt::Result {
        let digits = if self.high == 0 { format!("{:x}", self.low) } else { format!("{:x}{:032x}", self.high, self.low) };
        f.pad_integral(true, "0x", &digits)
    }
}

impl fmt::Display for Total {
    fn fmt(&self, f: &mut fmt::Formatter<'_>) -> fmt::Result {
        // 19 decimal digits at a time, from the right
        const CHUNK: u128 = 10_000_000_000_000_000_000;
        let mut limbs = [self.high, (self.low >> 64) as u64, self.low as u64];
        let mut chunks = Vec::new();
        while chunks.is_empty() || limbs != [0; 3] {
            let mut rest = 0;
            for limb in &mut limbs {
                let number = rest << 64 | u128::from(*limb);
                *limb = (number / CHUNK) as u64;
                rest = number % CHUNK;
            }
            chunks.push(rest);
        }
        let mut digits = String::new();
        for (i, chunk) in chunks.iter().rev().enumerate() {
            digits += &if i == 0 { format!("{chunk}") } else { format!("{chunk:019}") };
        }
        f.pad_integral(true, "", &digits)
    }
}

#[cfg(test)]
mod tests {
    use super::Total;

    #[test]
    fn decimal_digits() {
        assert_eq!(Total::ZERO.to_string(), "0");
        for x in [1u128, 9_999_999_999_999_999_999, 10_000_000_000_000_000_000, u64::MAX as u128, 1 << 64, u128::MAX] {
            assert_eq!(Total::from(x).to_string(), x.to_string());
        }
        // 3 * (2^128 - 1)
        let total: Total = [u128::MAX; 3].into_iter().sum();
        assert_eq!(total.to_string(), "1020847100762815390390123822295304634365");
        let top = Total { high: u64::MAX, low: u128::MAX };
        assert_eq!(top.to_string(), "6277101735386680763835789423207666416102355444464034512895");
        assert_eq!(top.saturating_add(Total::from(1)), top);
        assert_eq!(format!("{:>5}|", Total::from(12)), "   12|");
    }

    #[test]
    fn sums() {
        let parts = [Total::from(u128::MAX), Total::from(1), Total { high: 7, low: 5 }];
        let whole = Total { high: 8, low: 5 };
        assert_eq!(parts.iter().sum::<Total>(), whole);
        assert_eq!(parts.into_iter().sum::<Total>(), whole);
        let mut total = Total::ZERO;
        for part in parts {
            total += part;
        }
        assert_eq!(total, whole);
        total += u128::MAX;
        assert_eq!(total, Total { high: 9, low: 4 });
        total += Total { high: u64::MAX, low: 0 };
        assert_eq!(total, Total { high: u64::MAX, low: u128::MAX });
        assert_eq!(Vec::<Total>::new().into_iter().sum::<Total>(), Total::ZERO);
        assert_eq!(u128::try_from(Total::from(u128::MAX)), Ok(u128::MAX));
        assert_eq!(u128::try_from(whole), Err(super::TotalTooWide(whole)));
    }

    #[test]
    fn differences() {
        let x = Total { high: 1, low: 0 };
        assert_eq!(x.checked_sub(Total::from(1)), Some(Total::from(u128::MAX)));
        assert_eq!(Total::from(1).checked_sub(x), None);
        assert_eq!(x.checked_sub(x), Some(Total::ZERO));
        assert!(x > Total::from(u128::MAX));
    }
}
