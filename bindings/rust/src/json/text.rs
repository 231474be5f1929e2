//! A strict reader of JSON (RFC 8259). A text is looked over once, and its values are then places in it: nothing is built, so that reading takes no memory that
//! grows with the text, whatever stands in it. A value knows its place, so that a complaint can name line and column.
use super::Error;
use std::borrow::Cow;
use std::collections::HashSet;

/// How deep lists and objects may be nested in a text that is read.
pub const MAX_DEPTH: usize = 64;

/// How many fields an object may have in a text that is read: their names are kept while the object is looked over, to find one that stands twice.
pub const MAX_FIELDS: usize = 1000;

/// How many characters of the text a complaint repeats.
const SHOWN: usize = 60;

/// Text as a complaint repeats it: in quotes, and cut off where it is long.
pub(super) fn quoted(text: &str) -> String {
    match text.char_indices().nth(SHOWN) {
        None => format!("{text:?}"),
        Some((end, _)) => format!("{:?}..", &text[..end]),
    }
}

/// The line and column of a byte, both from 1; a column is a character.
fn place(bytes: &[u8], at: usize) -> (usize, usize) {
    let before = &bytes[..at.min(bytes.len())];
    let line = before.iter().filter(|b| **b == b'\n').count() + 1;
    let start = before.iter().rposition(|b| *b == b'\n').map_or(0, |i| i + 1);
    // the bytes that go on with a character are not counted
    let column = before[start..].iter().filter(|b| **b & 0xc0 != 0x80).count() + 1;
    (line, column)
}

/// What a text is that is taken for JSON, and is none, by its start.
pub(super) fn another_kind(bytes: &[u8]) -> Option<&'static str> {
    if bytes.starts_with(b"\xef\xbb\xbf") {
        return Some("the text begins with a byte order mark, which JSON has not; save it as UTF-8 without one");
    }
    if bytes.starts_with(b"\xff\xfe") || bytes.starts_with(b"\xfe\xff") {
        return Some("the text is UTF-16, by its byte order mark; JSON is UTF-8");
    }
    let mut lines = bytes.split(|b| *b == b'\n').map(<[u8]>::trim_ascii).filter(|line| !line.is_empty() && !line.starts_with(b"#"));
    let line = lines.next()?;
    // a name and a colon, without quotes, or an item of a list
    let name = line.iter().position(|b| *b == b':').map_or(&[][..], |i| &line[..i]);
    let named = name.first().is_some_and(u8::is_ascii_alphabetic) && name.iter().all(|b| b.is_ascii_alphanumeric() || *b == b'_');
    (named || line == b"---" || line.starts_with(b"- "))
        .then_some("the text looks like YAML, not JSON; ckb-cli prints JSON with --output-format json")
}

fn error(bytes: &[u8], at: usize, message: impl Into<String>) -> Error {
    let (line, column) = place(bytes, at);
    Error { line, column, message: message.into() }
}

/// Goes over a text.
struct Reader<'a> {
    text: &'a str,
    at: usize,
}

impl<'a> Reader<'a> {
    fn peek(&self) -> Option<char> {
        match self.text.as_bytes().get(self.at)? {
            b if b.is_ascii() => Some(char::from(*b)),
            _ => self.text[self.at..].chars().next(),
        }
    }

    /// Passes the bytes of which this holds.
    fn pass_all(&mut self, passed: impl Fn(u8) -> bool) {
        let rest = &self.text.as_bytes()[self.at..];
        self.at += rest.iter().position(|b| !passed(*b)).unwrap_or(rest.len());
    }

    fn space(&mut self) {
        self.pass_all(|b| matches!(b, b' ' | b'\n' | b'\r' | b'\t'));
    }

    /// Passes this character if it is the next.
    fn pass(&mut self, c: char) -> bool {
        let passed = self.peek() == Some(c);
        if passed {
            self.at += c.len_utf8();
        }
        passed
    }

    fn fail<T>(&self, at: usize, message: impl Into<String>) -> Result<T, Error> {
        Err(error(self.text.as_bytes(), at, message))
    }

    /// A complaint about what stands here.
    fn unexpected<T>(&self, expected: &str) -> Result<T, Error> {
        match self.peek() {
            Some(c) => self.fail(self.at, format!("{expected}, not {c:?}")),
            None => self.fail(self.at, format!("{expected}, and the text ends")),
        }
    }

    fn value(&mut self, depth: usize) -> Result<(), Error> {
        self.space();
        match self.peek() {
            Some('{') => self.object(depth),
            Some('[') => self.list(depth),
            Some('"') => self.string().map(|_| ()),
            Some('-' | '0'..='9') => self.number(),
            Some('a'..='z') => self.word(),
            _ => self.unexpected("a value is expected"),
        }
    }

    fn open(&mut self, depth: usize) -> Result<(), Error> {
        if depth == MAX_DEPTH {
            return self.fail(self.at, format!("nested over {MAX_DEPTH} levels"));
        }
        self.at += 1;
        self.space();
        Ok(())
    }

    fn list(&mut self, depth: usize) -> Result<(), Error> {
        self.open(depth)?;
        if self.pass(']') {
            return Ok(());
        }
        loop {
            self.value(depth + 1)?;
            self.space();
            if self.pass(']') {
                return Ok(());
            }
            if !self.pass(',') {
                return self.unexpected("a comma or ] is expected");
            }
        }
    }

    fn object(&mut self, depth: usize) -> Result<(), Error> {
        self.open(depth)?;
        let mut names = HashSet::new();
        if self.pass('}') {
            return Ok(());
        }
        loop {
            self.space();
            let at = self.at;
            if self.peek() != Some('"') {
                return self.unexpected("the name of a field, in quotes, is expected");
            }
            if names.len() == MAX_FIELDS {
                return self.fail(at, format!("an object has over {MAX_FIELDS} fields"));
            }
            let name = decoded(self.string()?);
            if names.contains(&name) {
                return self.fail(at, format!("the field {} stands here a second time", quoted(&name)));
            }
            names.insert(name);
            self.space();
            if !self.pass(':') {
                return self.unexpected("a colon is expected");
            }
            self.value(depth + 1)?;
            self.space();
            if self.pass('}') {
                return Ok(());
            }
            if !self.pass(',') {
                return self.unexpected("a comma or } is expected");
            }
        }
    }

    fn word(&mut self) -> Result<(), Error> {
        for word in ["null", "true", "false"] {
            let rest = &self.text[self.at..];
            if rest.strip_prefix(word).is_some_and(|rest| !rest.starts_with(|c: char| c.is_ascii_alphanumeric())) {
                self.at += word.len();
                return Ok(());
            }
        }
        self.unexpected("a value is expected")
    }

    fn digits(&mut self) -> Result<(), Error> {
        let start = self.at;
        self.pass_all(|b| b.is_ascii_digit());
        if start == self.at { self.unexpected("a digit is expected") } else { Ok(()) }
    }

    fn number(&mut self) -> Result<(), Error> {
        self.pass('-');
        if !self.pass('0') {
            self.digits()?;
        }
        if self.pass('.') {
            self.digits()?;
        }
        if self.pass('e') || self.pass('E') {
            let _ = self.pass('+') || self.pass('-');
            self.digits()?;
        }
        Ok(())
    }

    /// A string: what stands between its quotes.
    fn string(&mut self) -> Result<&'a str, Error> {
        let start = self.at;
        self.at += 1;
        loop {
            // what needs a look is one byte each
            self.pass_all(|b| b >= b' ' && b != b'"' && b != b'\\');
            let at = self.at;
            self.at += 1;
            match self.text.as_bytes().get(at) {
                None => return self.fail(start, "the string that begins here has no end"),
                Some(b'"') => return Ok(&self.text[start + 1..at]),
                Some(b'\\') => {
                    self.escape(at)?;
                }
                Some(_) => return self.fail(at, "a string has no control characters or line ends"),
            }
        }
    }

    /// The character of an escape whose backslash, at `at`, is passed.
    fn escape(&mut self, at: usize) -> Result<char, Error> {
        let c = self.peek();
        self.at += c.map_or(0, char::len_utf8);
        Ok(match c {
            Some(c @ ('"' | '\\' | '/')) => c,
            Some('b') => '\u{8}',
            Some('f') => '\u{c}',
            Some('n') => '\n',
            Some('r') => '\r',
            Some('t') => '\t',
            Some('u') => {
                let first = self.unit(at)?;
                let code = if (0xd800..0xdc00).contains(&first) {
                    if !(self.pass('\\') && self.pass('u')) {
                        return self.fail(at, "half of a pair of \\u escapes");
                    }
                    let second = self.unit(at)?;
                    if !(0xdc00..0xe000).contains(&second) {
                        return self.fail(at, "half of a pair of \\u escapes");
                    }
                    0x10000 + ((first - 0xd800) << 10) + (second - 0xdc00)
                } else {
                    first
                };
                match char::from_u32(code) {
                    Some(c) => c,
                    None => return self.fail(at, "half of a pair of \\u escapes"),
                }
            }
            _ => return self.fail(at, "no escape of JSON"),
        })
    }

    /// Four hex digits.
    fn unit(&mut self, at: usize) -> Result<u32, Error> {
        let mut code = 0;
        for _ in 0..4 {
            let Some(digit) = self.peek().and_then(|c| c.to_digit(16)) else { return self.fail(at, "\\u has four hex digits") };
            code = code << 4 | digit;
            self.at += 1;
        }
        Ok(code)
    }
}

/// What stands between the quotes of a string that was looked over, without escapes.
fn decoded(between: &str) -> Cow<'_, str> {
    if !between.contains('\\') {
        return Cow::Borrowed(between);
    }
    let mut reader = Reader { text: between, at: 0 };
    let mut out = String::with_capacity(between.len());
    while let Some(c) = reader.peek() {
        let at = reader.at;
        reader.at += c.len_utf8();
        // each escape was looked over
        out.push(if c == '\\' { reader.escape(at).unwrap_or(char::REPLACEMENT_CHARACTER) } else { c });
    }
    Cow::Owned(out)
}

#[derive(Clone, Copy, Debug, PartialEq, Eq)]
pub(super) enum Kind {
    Null,
    Bool,
    Number,
    Text,
    List,
    Object,
}

impl Kind {
    fn name(self) -> &'static str {
        match self {
            Kind::Null => "null",
            Kind::Bool => "true or false",
            Kind::Number => "a number without quotes",
            Kind::Text => "a string",
            Kind::List => "a list",
            Kind::Object => "an object",
        }
    }
}

/// A value: its place in a text that was looked over.
#[derive(Clone, Copy, Debug)]
pub(super) struct Value<'a> {
    text: &'a str,
    at: usize,
}

impl<'a> Value<'a> {
    /// The value that a text is, which has to be UTF-8.
    pub fn read(bytes: &'a [u8]) -> Result<Value<'a>, Error> {
        if let Some(what) = another_kind(bytes) {
            return Err(error(bytes, 0, what));
        }
        let text = match std::str::from_utf8(bytes) {
            Ok(text) => text,
            Err(why) => return Err(error(bytes, why.valid_up_to(), "the text is not UTF-8 from here on")),
        };
        let mut reader = Reader { text, at: 0 };
        reader.space();
        let at = reader.at;
        reader.value(0)?;
        reader.space();
        match reader.peek() {
            None => Ok(Value { text, at }),
            Some(_) => reader.unexpected("the end of the text is expected after the value"),
        }
    }

    /// The byte that it begins at.
    pub fn at(&self) -> usize {
        self.at
    }

    pub fn kind(&self) -> Kind {
        match self.text.as_bytes().get(self.at) {
            Some(b'{') => Kind::Object,
            Some(b'[') => Kind::List,
            Some(b'"') => Kind::Text,
            Some(b't' | b'f') => Kind::Bool,
            Some(b'n') => Kind::Null,
            _ => Kind::Number,
        }
    }

    pub fn is_null(&self) -> bool {
        self.kind() == Kind::Null
    }

    /// A complaint about it.
    pub fn error(&self, message: impl Into<String>) -> Error {
        self.error_at(self.at, message)
    }

    /// A complaint about a place in the text.
    pub fn error_at(&self, at: usize, message: impl Into<String>) -> Error {
        error(self.text.as_bytes(), at, message)
    }

    /// A complaint that it is something else.
    pub fn expected(&self, what: &str) -> Error {
        self.error(format!("{what} is expected, not {}", self.kind().name()))
    }

    /// The byte behind it: behind its closing bracket or quote, or the last character of a number or word.
    fn end(&self) -> usize {
        let bytes = self.text.as_bytes();
        let mut depth = 0usize;
        let mut at = self.at;
        while let Some(b) = bytes.get(at) {
            match b {
                b'"' => {
                    at += 1;
                    while let Some(i) = bytes.get(at..).and_then(|rest| rest.iter().position(|b| matches!(b, b'"' | b'\\'))) {
                        at += i;
                        if bytes[at] == b'"' {
                            break;
                        }
                        at += 2;
                    }
                    at += 1;
                }
                b'{' | b'[' => {
                    depth += 1;
                    at += 1;
                }
                b'}' | b']' => {
                    depth = depth.saturating_sub(1);
                    at += 1;
                }
                b',' | b':' | b' ' | b'\n' | b'\r' | b'\t' => at += 1,
                _ => {
                    while bytes.get(at).is_some_and(|b| b.is_ascii_alphanumeric() || matches!(b, b'+' | b'-' | b'.')) {
                        at += 1;
                    }
                }
            }
            if depth == 0 {
                break;
            }
        }
        at.min(bytes.len())
    }

    /// What stands in the text.
    pub fn raw(&self) -> &'a str {
        &self.text[self.at..self.end()]
    }

    /// A string's characters, and whether it has no escapes, so that they stand in the text as they are.
    pub fn text(&self) -> Option<(Cow<'a, str>, bool)> {
        if self.kind() != Kind::Text {
            return None;
        }
        let text = decoded(self.raw().get(1..)?.strip_suffix('"')?);
        let plain = matches!(text, Cow::Borrowed(_));
        Some((text, plain))
    }

    /// The items of a list.
    pub fn items(&self) -> Result<impl Iterator<Item = Value<'a>> + use<'a>, Error> {
        if self.kind() == Kind::List { Ok(Parts { text: self.text, at: self.at + 1 }) } else { Err(self.expected("a list")) }
    }

    /// The fields of an object: where its name stands, the name, and the value. Of another value there are none.
    pub fn fields(&self) -> impl Iterator<Item = (usize, Cow<'a, str>, Value<'a>)> + use<'a> {
        let at = if self.kind() == Kind::Object { self.at + 1 } else { self.text.len() };
        let mut parts = Parts { text: self.text, at };
        std::iter::from_fn(move || {
            let name = parts.next()?;
            let value = parts.next()?;
            Some((name.at, name.text()?.0, value))
        })
    }

    /// A field of an object; none where there is no such field, or no object.
    pub fn field(&self, name: &str) -> Option<Value<'a>> {
        self.fields().find(|(_, other, _)| other == name).map(|(_, _, value)| value)
    }
}

/// Goes through what stands in a list, or through names and values of an object.
struct Parts<'a> {
    text: &'a str,
    at: usize,
}

impl<'a> Iterator for Parts<'a> {
    type Item = Value<'a>;

    fn next(&mut self) -> Option<Value<'a>> {
        let rest = &self.text.as_bytes()[self.at..];
        let passed = rest.iter().position(|b| !matches!(b, b' ' | b'\n' | b'\r' | b'\t' | b',' | b':'))?;
        if matches!(rest[passed], b']' | b'}') {
            return None;
        }
        let value = Value { text: self.text, at: self.at + passed };
        self.at = value.end();
        Some(value)
    }
}

#[cfg(test)]
#[path = "text_tests.rs"]
mod tests;
