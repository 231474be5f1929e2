//! Where a case file goes: standard output, a device or pipe, or a file that is replaced as a whole.
use crate::files::Failure;
use std::collections::hash_map::RandomState;
use std::ffi::OsStr;
use std::fs::{File, Metadata, OpenOptions};
use std::hash::{BuildHasher, Hasher};
use std::io::{self, IsTerminal, Write};
use std::os::fd::AsFd;
use std::os::unix::fs::{MetadataExt, OpenOptionsExt, fchown};
use std::path::{Path, PathBuf};

/// What a name for the output stands for.
pub enum Output {
    Standard,
    /// What is no regular file is written to as it is.
    Device(PathBuf),
    /// A file that is to be made, or replaced.
    File {
        path: PathBuf,
        old: Option<Metadata>,
    },
}

/// The file behind a descriptor of this process.
fn metadata_of(stream: &impl AsFd) -> Option<Metadata> {
    File::from(stream.as_fd().try_clone_to_owned().ok()?).metadata().ok()
}

fn same(a: &Metadata, b: &Metadata) -> bool {
    (a.dev(), a.ino()) == (b.dev(), b.ino())
}

/// What a link stands for, also where nothing is there yet. The count of links is bounded, as the system does it.
fn behind_links(path: &Path) -> io::Result<PathBuf> {
    let mut path = path.to_path_buf();
    for _ in 0..40 {
        if !path.symlink_metadata().is_ok_and(|found| found.is_symlink()) {
            return Ok(path);
        }
        let target = path.read_link()?;
        path = path.parent().unwrap_or(Path::new("")).join(target);
    }
    Err(io::Error::other("too many symbolic links"))
}

impl Output {
    /// What `-o` names; `-`, or no name, and whatever else is this process's standard output, is that.
    pub fn of(name: Option<&OsStr>) -> io::Result<Output> {
        let Some(path) = name.filter(|name| *name != "-").map(Path::new) else { return Ok(Output::Standard) };
        match path.metadata() {
            Ok(found) if metadata_of(&io::stdout()).is_some_and(|stdout| same(&stdout, &found)) => Ok(Output::Standard),
            Ok(found) if found.is_dir() => Err(io::Error::from(io::ErrorKind::IsADirectory)),
            Ok(found) if found.is_file() => Ok(Output::File { path: behind_links(path)?, old: Some(found) }),
            Ok(_) => Ok(Output::Device(path.to_path_buf())),
            Err(why) if why.kind() == io::ErrorKind::NotFound => Ok(Output::File { path: behind_links(path)?, old: None }),
            Err(why) => Err(why),
        }
    }

    /// Whether this is a file that stands there already.
    pub fn is_old_file(&self) -> bool {
        matches!(self, Output::File { old: Some(_), .. })
    }

    /// The regular file that bytes would go to, where there is one already; that of standard output too, which the caller may have opened.
    fn old_file(&self) -> Option<Metadata> {
        match self {
            Output::File { old, .. } => old.clone(),
            Output::Standard => metadata_of(&io::stdout()).filter(Metadata::is_file),
            Output::Device(_) => None,
        }
    }

    /// Whether the file that is read is the one that would be replaced, by whatever names, links among them.
    pub fn is_file_of(&self, input: &OsStr) -> bool {
        let input = if input == "-" { metadata_of(&io::stdin()) } else { Path::new(input).metadata().ok() };
        input.zip(self.old_file()).is_some_and(|(input, old)| same(&input, &old))
    }

    /// Whether bytes would go to somebody's screen.
    pub fn is_terminal(&self) -> bool {
        matches!(self, Output::Standard) && io::stdout().is_terminal()
    }

    /// Writes the bytes; standard output is the caller's. A file is there as it was or with all of the bytes at any time, whatever happens meanwhile. What is
    /// returned is why it may not outlast a power cut, if that is so.
    pub fn write(&self, bytes: &[u8]) -> io::Result<Option<io::Error>> {
        match self {
            Output::Standard => Ok(None),
            Output::Device(path) => OpenOptions::new().write(true).open(path)?.write_all(bytes).map(|()| None),
            Output::File { path, old } => replace(path, old.is_some(), bytes),
        }
    }
}

/// A new file in this folder under a name that nobody can foretell.
fn new_file(folder: &Path, mode: u32) -> io::Result<(PathBuf, File)> {
    loop {
        let path = folder.join(format!(".basinpantry-{:016x}.tmp", RandomState::new().build_hasher().finish()));
        match OpenOptions::new().write(true).create_new(true).mode(mode).open(&path) {
            Err(why) if why.kind() == io::ErrorKind::AlreadyExists => {}
            file => return Ok((path, file?)),
        }
    }
}

/// Writes beside, and gives that the name once it is whole and on the disk.
fn replace(path: &Path, is_old: bool, bytes: &[u8]) -> io::Result<Option<io::Error>> {
    let folder = match path.parent() {
        Some(folder) if folder != Path::new("") => folder,
        _ => Path::new("."),
    };
    // a file that may not be written to is not replaced either
    let old = if is_old { Some(OpenOptions::new().write(true).open(path)?.metadata()?) } else { None };
    let (beside, file) = new_file(folder, if is_old { 0o600 } else { 0o666 })?;
    let written = fill(file, old.as_ref(), bytes).and_then(|()| std::fs::rename(&beside, path));
    if let Err(why) = written {
        let _ = std::fs::remove_file(&beside);
        return Err(why);
    }
    // so that the name lasts too
    Ok(File::open(folder).and_then(|folder| folder.sync_all()).err())
}

fn fill(mut file: File, old: Option<&Metadata>, bytes: &[u8]) -> io::Result<()> {
    file.write_all(bytes)?;
    if let Some(old) = old {
        let new = file.metadata()?;
        if (new.uid(), new.gid()) != (old.uid(), old.gid()) {
            // only the superuser may give a file away: then it stays the writer's
            let _ = fchown(&file, Some(old.uid()), Some(old.gid()));
        }
        file.set_permissions(old.permissions())?;
    }
    file.sync_all()
}

/// Why nothing was written under a name, and what stands there.
pub fn not_written(name: &str, why: &io::Error, output: &Output) -> Failure {
    match output {
        Output::File { old: Some(_), .. } => Failure(format!("{name}: {why}; the old {name} is still there")),
        Output::File { old: None, .. } => Failure(format!("{name}: {why}; nothing was written")),
        // a part may have gone through
        _ => Failure(format!("{name}: {why}")),
    }
}
