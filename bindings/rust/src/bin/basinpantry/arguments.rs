//! The words after a command's name.
use crate::files::{Failure, Input, MAX_FILE_BYTES, MOST_FILE_BYTES};
use std::ffi::{OsStr, OsString};
use std::os::unix::ffi::OsStrExt;

/// Bad usage of a command.
pub fn usage<T>(command: &str, why: impl std::fmt::Display) -> Result<T, Failure> {
    Err(Failure(format!("{why}; try: basinpantry {command} --help")))
}

/// A command's arguments: flags without a value, options with one, and the rest.
pub struct Arguments {
    command: &'static str,
    flags: Vec<String>,
    options: Vec<(String, OsString)>,
    max_bytes: u64,
    pub rest: Vec<OsString>,
}

/// The options whose value is a number; that of the others is a file.
const NUMBERS: [&str; 2] = ["--rate", MAX_BYTES];

/// The option that every command has.
const MAX_BYTES: &str = "--max-bytes";

/// A number below 2^64, decimal or 0x and hex digits.
fn number(text: &str) -> Option<u64> {
    match text.strip_prefix("0x") {
        Some(digits) if digits.bytes().all(|b| b.is_ascii_hexdigit()) => u64::from_str_radix(digits, 16).ok(),
        None if text.bytes().all(|b| b.is_ascii_digit()) => text.parse().ok(),
        _ => None,
    }
}

/// An option and the value that stands in the same word: `--rate=1000`.
fn in_one_word(word: &OsStr) -> Option<(String, OsString)> {
    let bytes = word.as_bytes();
    let at = bytes.iter().position(|b| *b == b'=').filter(|_| bytes.starts_with(b"--"))?;
    Some((String::from_utf8_lossy(&bytes[..at]).into_owned(), OsStr::from_bytes(&bytes[at + 1..]).to_owned()))
}

impl Arguments {
    /// Reads the words, of which `--` ends the options. Standard input can be read only once, so `-` is refused where it is named for two inputs.
    pub fn read(command: &'static str, words: &[OsString], flags: &[&str], options: &[&str]) -> Result<Arguments, Failure> {
        let mut found = Arguments { command, flags: Vec::new(), options: Vec::new(), max_bytes: MAX_FILE_BYTES, rest: Vec::new() };
        let is_option = |name: &str| options.contains(&name) || name == MAX_BYTES;
        let is_name = |word: &OsStr| word == "--" || word.to_str().is_some_and(|word| flags.contains(&word) || is_option(word));
        let mut words = words.iter();
        while let Some(word) = words.next() {
            let name = word.to_string_lossy().into_owned();
            let (name, joined) = match in_one_word(word) {
                Some((name, value)) => (name, Some(value)),
                None => (name, None),
            };
            if name == "--" && joined.is_none() {
                found.rest.extend(words.by_ref().cloned());
            } else if flags.contains(&name.as_str()) {
                if joined.is_some() {
                    return usage(command, format!("{name} takes no value"));
                }
                found.flags.push(name);
            } else if is_option(&name) {
                if found.option(&name).is_some() {
                    return usage(command, format!("{name} stands twice"));
                }
                match joined.or_else(|| words.next().filter(|value| !is_name(value)).cloned()) {
                    Some(value) if !value.is_empty() => found.options.push((name, value)),
                    _ => {
                        let what = if NUMBERS.contains(&name.as_str()) { "a number" } else { "a file" };
                        return usage(command, format!("{name} needs {what}"));
                    }
                }
            } else if name.starts_with('-') && name != "-" {
                return usage(command, format!("there is no option {name}"));
            } else {
                found.rest.push(word.clone());
            }
        }
        if found.inputs().filter(|(_, path)| *path == "-").count() > 1 {
            return usage(command, "- is named twice, and standard input can be read only once");
        }
        if let Some(most) = found.number(MAX_BYTES)? {
            if most > MOST_FILE_BYTES {
                return usage(command, format!("{MAX_BYTES} is at most {MOST_FILE_BYTES}, not {most}"));
            }
            found.max_bytes = most;
        }
        Ok(found)
    }

    /// The files that are read, with the options that name them.
    pub fn inputs(&self) -> impl Iterator<Item = (&str, &OsStr)> {
        let options = self.options.iter().map(|(name, value)| (name.as_str(), value.as_os_str()));
        let files = options.filter(|(name, _)| *name != "-o" && !NUMBERS.contains(name));
        files.chain(self.rest.iter().map(|path| ("", path.as_os_str())))
    }

    pub fn has(&self, flag: &str) -> bool {
        self.flags.iter().any(|other| other == flag)
    }

    pub fn option(&self, name: &str) -> Option<&OsStr> {
        self.options.iter().find(|(other, _)| other == name).map(|(_, value)| value.as_os_str())
    }

    /// The number of an option.
    pub fn number(&self, name: &str) -> Result<Option<u64>, Failure> {
        let Some(text) = self.option(name).map(|text| text.to_string_lossy()) else { return Ok(None) };
        match number(&text) {
            Some(number) => Ok(Some(number)),
            None => usage(self.command, format!("{name} is a number below 2^64, not {text}")),
        }
    }

    fn input(&self, path: &OsStr) -> Result<Input, Failure> {
        Input::read(path, self.max_bytes)
    }

    pub fn file(&self, name: &str) -> Result<Option<Input>, Failure> {
        self.option(name).map(|path| self.input(path)).transpose()
    }

    /// The file of an option that has to be there.
    pub fn needed(&self, name: &str) -> Result<Input, Failure> {
        match self.file(name)? {
            Some(file) => Ok(file),
            None => usage(self.command, format!("{name} is missing")),
        }
    }

    /// The one file that is named.
    pub fn one_file(&self) -> Result<Input, Failure> {
        match &self.rest[..] {
            [path] => self.input(path),
            [] => usage(self.command, "no file is named"),
            [_, second, ..] => usage(self.command, format!("only one file is looked at, not also {}", second.to_string_lossy())),
        }
    }

    /// The files that are named.
    pub fn files(&self) -> Result<Vec<Input>, Failure> {
        if self.rest.is_empty() {
            return usage(self.command, "no case file is named");
        }
        self.rest.iter().map(|path| self.input(path)).collect()
    }
}
