//! What a value of JSON is taken for.
use super::Error;
use super::text::{Kind, Value, quoted};
use crate::names::H256;
use std::borrow::Cow;

impl<'a> Value<'a> {
    /// The values of these fields. Those of `optional` may be missing or null; another field is refused, as it may be one of these with its name wrong.
    pub fn these_fields<const N: usize, const M: usize>(
        &self,
        needed: [&str; N],
        optional: [&str; M],
    ) -> Result<([Value<'a>; N], [Option<Value<'a>>; M]), Error> {
        if self.kind() != Kind::Object {
            return Err(self.expected("an object"));
        }
        let mut found = [None; N];
        let mut others = [None; M];
        for (at, name, value) in self.fields() {
            if let Some(i) = needed.iter().position(|other| name == *other) {
                found[i] = Some(value);
            } else if let Some(i) = optional.iter().position(|other| name == *other) {
                others[i] = Some(value).filter(|value| !value.is_null());
            } else {
                return Err(self.error_at(at, format!("there is no field {} here", quoted(&name))));
            }
        }
        let mut all = [*self; N];
        for ((name, found), place) in needed.iter().zip(found).zip(&mut all) {
            *place = found.ok_or_else(|| self.error(format!("the field {name:?} is missing")))?;
        }
        Ok((all, others))
    }

    /// Every item of a list, by `read`. They are read twice: room is made once it is known that all are good, and how many there are.
    pub fn all<T>(&self, read: impl Fn(Value<'a>) -> Result<T, Error>) -> Result<Vec<T>, Error> {
        let mut count = 0;
        for item in self.items()? {
            read(item)?;
            count += 1;
        }
        let mut all = Vec::with_capacity(count);
        for item in self.items()? {
            all.push(read(item)?);
        }
        Ok(all)
    }

    pub fn string(&self) -> Result<Cow<'a, str>, Error> {
        self.text().map(|(text, _)| text).ok_or_else(|| self.expected("a string"))
    }

    /// The digits after 0x, all of them hex.
    fn hex_digits(&self, what: &str) -> Result<Cow<'a, str>, Error> {
        let Some((text, plain)) = self.text() else {
            return Err(self.expected(&format!("{what} as a string of 0x and hex digits")));
        };
        if !text.starts_with("0x") {
            return Err(self.error(format!("{what} begins with 0x")));
        }
        if let Some((i, c)) = text.char_indices().skip(2).find(|(_, c)| !c.is_ascii_hexdigit()) {
            // behind the quote, unless escapes moved it
            let at = if plain { self.at() + 1 + i } else { self.at() };
            return Err(self.error_at(at, format!("{c:?} is no hex digit")));
        }
        Ok(match text {
            Cow::Borrowed(text) => Cow::Borrowed(&text[2..]),
            Cow::Owned(text) => Cow::Owned(text[2..].to_string()),
        })
    }

    /// Bytes as 0x and two hex digits for each.
    pub fn bytes(&self) -> Result<Vec<u8>, Error> {
        let digits = self.hex_digits("bytes")?;
        if digits.len() % 2 != 0 {
            return Err(self.error("odd number of hex digits"));
        }
        // two hex digits are below 256
        let digit = |b: &u8| char::from(*b).to_digit(16).unwrap_or(0) as u8;
        Ok(digits.as_bytes().chunks_exact(2).map(|pair| digit(&pair[0]) << 4 | digit(&pair[1])).collect())
    }

    pub fn hash(&self) -> Result<H256, Error> {
        let bytes = self.bytes()?;
        H256::from_bytes(&bytes).ok_or_else(|| self.error(format!("a hash has 32 bytes, and this has {}", bytes.len())))
    }

    /// A number as 0x and hex digits, of at most so many bits.
    fn number(&self, bits: usize) -> Result<u64, Error> {
        let digits = self.hex_digits("a number")?;
        if digits.is_empty() {
            return Err(self.error("a number has a digit after 0x"));
        }
        if digits.len() > 1 && digits.starts_with('0') {
            return Err(self.error("a number has no zeros in front"));
        }
        if digits.len() > bits / 4 {
            return Err(self.error(format!("the number is over {bits} bits")));
        }
        u64::from_str_radix(&digits, 16).map_err(|_| self.error(format!("the number is over {bits} bits")))
    }

    pub fn u64(&self) -> Result<u64, Error> {
        self.number(64)
    }

    pub fn u32(&self) -> Result<u32, Error> {
        let number = self.number(32)?;
        u32::try_from(number).map_err(|_| self.error("the number is over 32 bits"))
    }

    /// What one of these names stands for. CKB's JSON has names alone.
    pub fn named<T: Copy>(&self, what: &str, names: &[(&str, T)]) -> Result<T, Error> {
        let text = self.string()?;
        match names.iter().find(|(name, _)| *name == text) {
            Some((_, found)) => Ok(*found),
            None => {
                let names: Vec<&str> = names.iter().map(|(name, _)| *name).collect();
                Err(self.error(format!("{what} is one of {}, not {}", names.join(", "), quoted(&text))))
            }
        }
    }
}
