//! Hashes, and the bytes of a transaction that have names.
use std::fmt;
use std::str::FromStr;

/// A text that is none of what it was read as.
///
/// ```
/// let why = "0x12".parse::<basinpantry::H256>().unwrap_err();
/// assert_eq!(why.to_string(), "a hash is 0x and 64 hex digits");
/// let why = "typ".parse::<basinpantry::HashType>().unwrap_err();
/// assert_eq!(why.to_string(), "a hash type is data, type, data1, data2, or 0x and two hex digits");
/// ```
#[derive(Clone, Copy, Debug, PartialEq, Eq, Hash)]
pub struct ParseNameError(&'static str);

impl fmt::Display for ParseNameError {
    fn fmt(&self, f: &mut fmt::Formatter<'_>) -> fmt::Result {
        f.write_str(self.0)
    }
}

impl std::error::Error for ParseNameError {}

/// The bytes of two hex digits each.
fn hex_bytes<const N: usize>(digits: &str) -> Option<[u8; N]> {
    let digits = digits.as_bytes();
    if digits.len() != 2 * N {
        return None;
    }
    let digit = |b: u8| char::from(b).to_digit(16);
    let mut bytes = [0; N];
    for (byte, pair) in bytes.iter_mut().zip(digits.chunks_exact(2)) {
        *byte = u8::try_from(digit(pair[0])? << 4 | digit(pair[1])?).ok()?;
    }
    Some(bytes)
}

/// A hash of 32 bytes: of a transaction, of a block, or of a script's code.
///
/// ```
/// use basinpantry::{H256};
///
/// let hash = H256([0xab; 32]);
/// assert_eq!(hash.to_string(), format!("0x{}", "ab".repeat(32)));
/// assert_eq!(hash.to_string().parse(), Ok(hash));
/// assert_eq!(H256::from([0xab; 32]), hash);
/// assert_eq!(H256::from_bytes(&[0xab; 31]), None);
/// ```
#[derive(Clone, Copy, Default, PartialEq, Eq, PartialOrd, Ord, Hash)]
pub struct H256(
    /// Its bytes.
    pub [u8; 32],
);

impl H256 {
    /// The hash of 32 bytes; none of any other count.
    ///
    /// ```
    /// assert_eq!(basinpantry::H256::from_bytes(&[0; 32]), Some(basinpantry::H256::default()));
    /// ```
    pub fn from_bytes(s: &[u8]) -> Option<H256> {
        Some(H256(s.try_into().ok()?))
    }
}

impl From<[u8; 32]> for H256 {
    fn from(bytes: [u8; 32]) -> H256 {
        H256(bytes)
    }
}

impl From<H256> for [u8; 32] {
    fn from(hash: H256) -> [u8; 32] {
        hash.0
    }
}

impl AsRef<[u8]> for H256 {
    fn as_ref(&self) -> &[u8] {
        &self.0
    }
}

/// 0x and 64 hex digits, as CKB has it.
impl fmt::Display for H256 {
    fn fmt(&self, f: &mut fmt::Formatter<'_>) -> fmt::Result {
        f.write_str("0x")?;
        self.0.iter().try_for_each(|b| write!(f, "{b:02x}"))
    }
}

impl fmt::Debug for H256 {
    fn fmt(&self, f: &mut fmt::Formatter<'_>) -> fmt::Result {
        write!(f, "H256({self})")
    }
}

/// What `Display` writes, read back; capital hex digits are read too.
impl FromStr for H256 {
    type Err = ParseNameError;

    fn from_str(s: &str) -> Result<H256, ParseNameError> {
        s.strip_prefix("0x").and_then(hex_bytes).map(H256).ok_or(ParseNameError("a hash is 0x and 64 hex digits"))
    }
}

/// A byte of which some values have names: a constant for each, and any other byte as it is.
macro_rules! named_byte {
    ($(#[$doc:meta])* $name:ident, $why:literal, $($constant:ident = $byte:literal $text:literal $about:literal,)*) => {
        $(#[$doc])*
        #[derive(Clone, Copy, Default, PartialEq, Eq, PartialOrd, Ord, Hash)]
        pub struct $name(u8);

        impl $name {
            $(
                #[doc = $about]
                pub const $constant: $name = $name($byte);
            )*

            /// The names, each with what it stands for.
            pub const NAMES: &'static [(&'static str, $name)] = &[$(($text, $name::$constant)),*];

            /// Its byte.
            pub const fn byte(self) -> u8 {
                self.0
            }

            /// Its name in CKB; none of a byte that has no name there.
            pub fn name(self) -> Option<&'static str> {
                $name::NAMES.iter().find(|(_, other)| *other == self).map(|(name, _)| *name)
            }

            /// What a name stands for.
            pub fn from_name(name: &str) -> Option<$name> {
                $name::NAMES.iter().find(|(other, _)| *other == name).map(|(_, found)| *found)
            }
        }

        impl From<u8> for $name {
            fn from(byte: u8) -> $name {
                $name(byte)
            }
        }

        impl From<$name> for u8 {
            fn from(named: $name) -> u8 {
                named.0
            }
        }

        /// Its name, or 0x and two hex digits.
        impl fmt::Display for $name {
            fn fmt(&self, f: &mut fmt::Formatter<'_>) -> fmt::Result {
                match self.name() {
                    Some(name) => f.pad(name),
                    None => f.pad(&format!("{:#04x}", self.0)),
                }
            }
        }

        impl fmt::Debug for $name {
            fn fmt(&self, f: &mut fmt::Formatter<'_>) -> fmt::Result {
                write!(f, concat!(stringify!($name), "({})"), self)
            }
        }

        /// What `Display` writes, read back, and the two digits of any byte.
        impl FromStr for $name {
            type Err = ParseNameError;

            fn from_str(s: &str) -> Result<$name, ParseNameError> {
                let byte = || s.strip_prefix("0x").and_then(hex_bytes).map(|[byte]| $name(byte));
                $name::from_name(s).or_else(byte).ok_or(ParseNameError($why))
            }
        }
    };
}

named_byte! {
    /// How a script's code is found by its hash. The rules allow any byte, and any byte is read and written.
    ///
    /// ```
    /// use basinpantry::{HashType};
    ///
    /// assert_eq!("type".parse(), Ok(HashType::TYPE));
    /// assert_eq!((HashType::DATA2.byte(), HashType::DATA2.to_string()), (4, "data2".to_string()));
    /// // a byte that CKB has no name for
    /// let unknown = HashType::from(3);
    /// assert_eq!((unknown.name(), unknown.to_string().parse()), (None, Ok(unknown)));
    /// ```
    HashType, "a hash type is data, type, data1, data2, or 0x and two hex digits",
    DATA = 0 "data" "The hash of the code's cell's data, run by the first virtual machine.",
    TYPE = 1 "type" "The hash of the code's cell's type script.",
    DATA1 = 2 "data1" "The hash of the data, run by the second virtual machine.",
    DATA2 = 4 "data2" "The hash of the data, run by the third virtual machine.",
}

named_byte! {
    /// What a cell dep stands for. The rules allow any byte, and any byte is read and written.
    ///
    /// ```
    /// use basinpantry::{DepType};
    ///
    /// assert_eq!("dep_group".parse(), Ok(DepType::DEP_GROUP));
    /// assert_eq!((DepType::from(0), u8::from(DepType::DEP_GROUP)), (DepType::CODE, 1));
    /// assert_eq!(DepType::from(255).to_string(), "0xff");
    /// ```
    DepType, "a dep type is code, dep_group, or 0x and two hex digits",
    CODE = 0 "code" "The cell itself.",
    DEP_GROUP = 1 "dep_group" "The cells whose out points the cell's data lists.",
}

#[cfg(test)]
mod tests {
    use super::*;

    #[test]
    fn every_byte_survives() {
        for byte in 0..=255 {
            let (hash_type, dep_type) = (HashType::from(byte), DepType::from(byte));
            assert_eq!((hash_type.byte(), dep_type.byte()), (byte, byte));
            assert_eq!((hash_type.to_string().parse(), dep_type.to_string().parse()), (Ok(hash_type), Ok(dep_type)));
            assert_eq!(format!("{byte:#04x}").parse(), Ok(hash_type));
        }
        assert_eq!(format!("{:?} {:?}", HashType::TYPE, DepType::from(7)), "HashType(type) DepType(0x07)");
    }

    #[test]
    fn texts_that_are_none() {
        for text in ["", "Type", "type ", "0x", "0x1", "0x001", "0xgg", "1", "data3", "0x+1"] {
            assert!(text.parse::<HashType>().is_err() && text.parse::<DepType>().is_err(), "{text}");
        }
        let digits = "0a".repeat(32);
        for text in [String::new(), digits.clone(), format!("0x{digits}0"), format!("0x{}", &digits[1..]), format!("0X{digits}")] {
            assert!(text.parse::<H256>().is_err(), "{text}");
        }
        assert_eq!(format!("0x{}", digits.to_uppercase()).parse(), Ok(H256([0x0a; 32])));
    }
}
