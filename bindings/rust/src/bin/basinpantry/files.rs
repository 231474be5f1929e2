//! Files in, and what goes wrong with them.
use basinpantry::{CaseFile, json};
use std::ffi::OsStr;
use std::fs::File;
use std::io::{self, Read};

/// How much is read of a file or of standard input where `--max-bytes` says nothing else. A transaction of 133,116 bytes, the longest that is judged, takes under
/// 2 MiB of JSON, and the program's memory stays under twenty times what it reads.
pub const MAX_FILE_BYTES: u64 = 8 * 1024 * 1024;

/// How far `--max-bytes` goes: no part of a case file has 2^28 bytes, so that hex of it has no more than this.
pub const MOST_FILE_BYTES: u64 = 1 << 30;

/// Why a command can't be done: bad usage, or a bad file.
pub struct Failure(pub String);

/// A file that was read, with the name for people.
pub struct Input {
    pub name: String,
    pub bytes: Vec<u8>,
}

/// Everything that there is to read; nothing where that is over the limit.
fn read_all(from: impl Read, length: u64, limit: u64) -> io::Result<Option<Vec<u8>>> {
    let mut bytes = Vec::new();
    // the length of a file is a hint: it may grow, and those of /proc have none
    bytes.try_reserve_exact(usize::try_from(length.min(limit)).unwrap_or(0).saturating_add(1))?;
    from.take(limit + 1).read_to_end(&mut bytes)?;
    Ok(if u64::try_from(bytes.len()).is_ok_and(|length| length <= limit) { Some(bytes) } else { None })
}

impl Input {
    /// Reads a file, or standard input for `-`, of at most so many bytes.
    pub fn read(path: &OsStr, limit: u64) -> Result<Input, Failure> {
        let name = path.to_string_lossy().into_owned();
        let read = if path == "-" {
            read_all(io::stdin().lock(), 0, limit)
        } else {
            File::open(path).and_then(|file| {
                let length = file.metadata()?.len();
                read_all(file, length, limit)
            })
        };
        match read {
            Ok(Some(bytes)) => Ok(Input { name, bytes }),
            Ok(None) => {
                Err(Failure(format!("{name}: it has more than {limit} bytes, and no more are read; --max-bytes N sets another bound")))
            }
            Err(why) => Err(Failure(format!("{name}: {why}"))),
        }
    }

    /// The case that it holds.
    pub fn case(&self) -> Result<CaseFile, Failure> {
        CaseFile::from_bytes(&self.bytes).map_err(|why| match json::is_json(&self.bytes) {
            true => self.fail("this is JSON; make a case file of it with `basinpantry case`, or judge it with `basinpantry judge`"),
            false => match json::another_kind(&self.bytes) {
                Some(what) => self.fail(format!("no case file: {what}")),
                None => self.fail(format!("no case file: {why}")),
            },
        })
    }

    /// A complaint about it.
    pub fn fail(&self, why: impl std::fmt::Display) -> Failure {
        Failure(format!("{}: {why}", self.name))
    }

    /// The text to be read as JSON, where it begins as JSON does or as what is taken for JSON; else this complaint. A transaction's or script's bytes may begin
    /// so too, as their first byte is the low one of their size: whether they are one is asked before.
    pub fn json_or(&self, why: impl std::fmt::Display) -> Result<&[u8], Failure> {
        let start = self.bytes.iter().find(|b| !b.is_ascii_whitespace());
        match matches!(start, Some(b'{' | b'[' | b'"' | b'n')) || json::another_kind(&self.bytes).is_some() {
            true => Ok(&self.bytes),
            false => Err(self.fail(why)),
        }
    }
}
