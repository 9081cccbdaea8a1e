//! Bytes in and out: standard input and output, and files, which are written beside and then renamed.

use crate::failure::Failure;
use crate::started;
use crate::tables::parted;
use std::ffi::OsString;
use std::fs::{File, Metadata, OpenOptions};
use std::io::{Error, ErrorKind, Read, Write};
use std::os::fd::AsFd;
use std::os::unix::fs::MetadataExt;
use std::path::{Path, PathBuf};

/// A file of more bytes than this is not read. The longest series that the limits allow is far shorter.
const LONGEST_FILE: u64 = 64 << 20;

/// Writes to standard output.
pub fn put(bytes: &[u8]) -> Result<(), Failure> {
    if started::without_output() && !bytes.is_empty() {
        return Err(Failure::Output("standard output is closed".to_string()));
    }
    let mut out = std::io::stdout().lock();
    out.write_all(bytes).and_then(|()| out.flush()).map_err(|error| match error.kind() {
        ErrorKind::BrokenPipe => Failure::Output("standard output was closed before all was written".to_string()),
        _ => Failure::Output(format!("standard output cannot be written: {error}")),
    })
}

/// Reads a file, or standard input for `-`.
pub fn read(path: &Path) -> Result<Vec<u8>, Failure> {
    let fail = |error: Error| Failure::File(format!("{} cannot be read: {error}", path.display()));
    let source: Box<dyn Read> = if path == Path::new("-") {
        Box::new(std::io::stdin().lock())
    } else {
        Box::new(File::open(path).map_err(fail)?)
    };
    let mut bytes = Vec::new();
    source.take(LONGEST_FILE + 1).read_to_end(&mut bytes).map_err(fail)?;
    if LONGEST_FILE < bytes.len() as u64 {
        let most = parted(LONGEST_FILE as i64);
        return Err(Failure::File(format!("{} is too large: more than {most} bytes", path.display())));
    }
    Ok(bytes)
}

/// Writes a file, or standard output for `-`.
pub fn write(path: &str, bytes: &[u8]) -> Result<(), Failure> {
    if path == "-" {
        return put(bytes);
    }
    let written = if is_stream(path) {
        OpenOptions::new().append(true).open(path).and_then(|mut stream| stream.write_all(bytes))
    } else {
        replace(Path::new(path), bytes)
    };
    written.map_err(|error| Failure::File(format!("{path} cannot be written: {error}")))
}

/// A device or a pipe takes the bytes as they are, and so does the file that standard output goes to: replaced, it would lose
/// what was printed.
fn is_stream(path: &str) -> bool {
    let Ok(data) = std::fs::metadata(path) else {
        return false;
    };
    !data.is_file() || of_stream(std::io::stdout()).is_ok_and(|out| identity(&out) == identity(&data))
}

/// What the system tells of an open stream.
fn of_stream(stream: impl AsFd) -> Result<Metadata, Error> {
    File::from(stream.as_fd().try_clone_to_owned()?).metadata()
}

/// The device and the number that a file has there, under whatever name.
fn identity(data: &Metadata) -> (u64, u64) {
    (data.dev(), data.ino())
}

/// Whether this is standard output, by its name or because the path leads there.
pub fn is_standard_output(path: &str) -> bool {
    let there = || Some(identity(&std::fs::metadata(path).ok()?) == identity(&of_stream(std::io::stdout()).ok()?));
    path == "-" || there().unwrap_or(false)
}

/// Where bytes come from or go to: a file that is there, or one that a folder does not have yet, by its name. A device or a pipe
/// is no place: whatever is written to it overwrites nothing.
#[derive(PartialEq)]
pub enum Place {
    There(u64, u64),
    New(u64, u64, OsString),
}

fn there(data: Metadata) -> Option<Place> {
    let (device, number) = identity(&data);
    data.is_file().then_some(Place::There(device, number))
}

/// The place that is read: a file, or standard input for `-`.
pub fn place_read(path: &str) -> Option<Place> {
    let data = if path == "-" { of_stream(std::io::stdin()) } else { std::fs::metadata(path) };
    data.ok().and_then(there)
}

/// The place that is written: a file, or standard output for `-`.
pub fn place_written(path: &str) -> Option<Place> {
    if path == "-" {
        return of_stream(std::io::stdout()).ok().and_then(there);
    }
    if let Ok(data) = std::fs::metadata(path) {
        return there(data);
    }
    let folder = Path::new(path).parent().filter(|folder| *folder != Path::new("")).unwrap_or(Path::new("."));
    let (device, number) = identity(&std::fs::metadata(folder).ok()?);
    Some(Place::New(device, number, Path::new(path).file_name()?.to_os_string()))
}

/// Writes a new file beside the old one and gives it that one's name, so that there is never half a file.
fn replace(path: &Path, bytes: &[u8]) -> Result<(), Error> {
    // A link stays one: what it points to is replaced.
    let target = std::fs::canonicalize(path).unwrap_or(path.to_path_buf());
    let part = beside(&target).ok_or(Error::from(ErrorKind::InvalidFilename))?;
    let written = fill(&part, &target, bytes).and_then(|()| std::fs::rename(&part, &target));
    if written.is_err() {
        let _ = std::fs::remove_file(&part);
    }
    written
}

fn beside(target: &Path) -> Option<PathBuf> {
    let name = target.file_name()?.to_string_lossy();
    Some(target.with_file_name(format!(".{name}.{}.part", std::process::id())))
}

fn fill(part: &Path, target: &Path, bytes: &[u8]) -> Result<(), Error> {
    let mut file = OpenOptions::new().write(true).create_new(true).open(part)?;
    file.write_all(bytes)?;
    if let Ok(data) = target.metadata() {
        file.set_permissions(data.permissions())?;
    }
    file.sync_all()
}
