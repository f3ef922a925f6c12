//! How a text comes into a file's place: there is always all of the old one, or all of the new.

use std::ffi::{OsStr, OsString};
use std::fs::{self, File, OpenOptions, Permissions};
use std::io::{self, ErrorKind, Write};
use std::path::{Path, PathBuf};
use std::process;

/// A name beside a file that no other has: with a point before it, and the number of this process behind it.
fn beside(file: &Path) -> PathBuf {
    let mut name = OsString::from(".");
    name.push(file.file_name().unwrap_or_default());
    name.push(format!(".{}", process::id()));
    file.with_file_name(name)
}

fn fill(mut made: File, text: &[u8], permissions: Option<Permissions>) -> io::Result<()> {
    made.write_all(text)?;
    permissions.map_or(Ok(()), |p| made.set_permissions(p))?;
    made.sync_all()
}

/// Writes a text into a new file, which is given the name when all of it is written.
fn put(file: &Path, text: &[u8], permissions: Option<Permissions>) -> io::Result<()> {
    let new = beside(file);
    let made = OpenOptions::new().write(true).create_new(true).open(&new)?;
    let written = fill(made, text, permissions).and_then(|_| fs::rename(&new, file));
    if written.is_err() {
        let _ = fs::remove_file(&new);
    }
    written
}

/// Puts a text into the place of a file, which keeps its permissions. A link to the file stays one.
pub fn replace(file: &OsStr, text: &[u8]) -> io::Result<()> {
    let file = fs::canonicalize(file)?;
    let old = fs::metadata(&file)?;
    if !old.is_file() {
        return Err(io::Error::new(ErrorKind::Other, "is no plain file"));
    }
    put(&file, text, Some(old.permissions()))
}

/// The same, where there may be no such file yet.
pub fn save(file: &OsStr, text: &[u8]) -> io::Result<()> {
    match fs::metadata(file) {
        Err(e) if e.kind() == ErrorKind::NotFound => put(Path::new(file), text, None),
        _ => replace(file, text),
    }
}
