//! Writing: to standard output, or to a file that is complete or not changed at all.

use crate::stop::{Done, Stop};
use std::fs;
use std::io::{ErrorKind, Write};
use std::path::{Path, PathBuf};

/// A pipe that is closed early has read what it wanted: that is no fault.
pub fn to_standard_output(out: &[u8]) -> Done<()> {
    let mut stdout = std::io::stdout().lock();
    match stdout.write_all(out).and_then(|()| stdout.flush()) {
        Err(e) if e.kind() != ErrorKind::BrokenPipe => Err(Stop::Trouble(format!("standard output: {e}"))),
        _ => Ok(()),
    }
}

/// Writes a new file next to the one that is meant, and then renames it. What is no regular file is written directly.
pub fn to_file(path: &str, out: &[u8]) -> Done<()> {
    let meant = fs::canonicalize(path).unwrap_or_else(|_| PathBuf::from(path));
    let written = match fs::metadata(&meant) {
        Ok(data) if !data.is_file() => {
            fs::OpenOptions::new().write(true).open(&meant).and_then(|mut f| f.write_all(out))
        }
        data => replace(&meant, data.ok().map(|d| d.permissions()), out),
    };
    written.map_err(|e| Stop::Trouble(format!("{path}: {e}")))
}

fn replace(meant: &Path, permissions: Option<fs::Permissions>, out: &[u8]) -> std::io::Result<()> {
    let mut name = std::ffi::OsString::from(".");
    name.push(meant.file_name().unwrap_or_default());
    name.push(format!(".{}", std::process::id()));
    let new = meant.with_file_name(name);
    let write = || {
        let mut file = fs::OpenOptions::new().write(true).create_new(true).open(&new)?;
        file.write_all(out)?;
        permissions.map_or(Ok(()), |p| fs::set_permissions(&new, p))?;
        file.sync_all()?;
        fs::rename(&new, meant)
    };
    let written = write();
    if written.is_err() {
        let _ = fs::remove_file(&new);
    }
    written
}
