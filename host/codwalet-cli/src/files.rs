//! Files: read whole, written whole or left as they were, and told apart. `-` is standard input or standard output.

use crate::shown::shown;
use std::fs::{self, File, Metadata, OpenOptions, Permissions};
use std::io::{self, Read, Write};
use std::os::fd::AsFd;
use std::os::unix::fs::MetadataExt;
use std::path::{Path, PathBuf};

/// Whether a path stands for standard input or standard output.
pub fn is_standard(path: &Path) -> bool {
    path.as_os_str() == "-"
}

/// How messages call a file that is read.
pub fn name_of(path: &Path) -> String {
    if is_standard(path) { "standard input".to_string() } else { shown(path) }
}

/// The bytes of a file, or of standard input.
///
/// # Errors
/// What the system says where the file can't be read.
pub fn read(path: &Path) -> io::Result<Vec<u8>> {
    if !is_standard(path) {
        return fs::read(path);
    }
    let mut bytes = Vec::new();
    io::stdin().lock().read_to_end(&mut bytes)?;
    Ok(bytes)
}

/// Writes a file whole: to a temporary file beside it, which then takes its name. Standard output, and what is no plain
/// file (a device, a pipe), can only be written into.
///
/// # Errors
/// What the system says where this fails; the file is then as it was, and the temporary one is gone.
pub fn write(path: &Path, bytes: &[u8]) -> io::Result<()> {
    if is_standard(path) {
        let mut out = io::stdout().lock();
        return out.write_all(bytes).and_then(|()| out.flush());
    }
    match fs::metadata(path) {
        Ok(found) if !found.is_file() => fs::write(path, bytes),
        Ok(found) => {
            // A file that may not be written must not be replaced either; opening it says so and changes nothing.
            OpenOptions::new().write(true).open(path)?;
            replace(&fs::canonicalize(path)?, bytes, Some(found.permissions()))
        }
        Err(why) if why.kind() == io::ErrorKind::NotFound => replace(&end_of_links(path), bytes, None),
        Err(why) => Err(why),
    }
}

/// Puts bytes in the place of a file, or where there is none.
fn replace(target: &Path, bytes: &[u8], permissions: Option<Permissions>) -> io::Result<()> {
    let (temporary, mut file) = create_beside(target)?;
    let written = file
        .write_all(bytes)
        .and_then(|()| permissions.map_or(Ok(()), |permissions| file.set_permissions(permissions)))
        .and_then(|()| fs::rename(&temporary, target));
    if written.is_err() {
        // The error that counts is the one before.
        let _ = fs::remove_file(&temporary);
    }
    written
}

/// An empty file beside another, under a name that none has.
fn create_beside(target: &Path) -> io::Result<(PathBuf, File)> {
    let process = std::process::id();
    for number in 0u32.. {
        let path = folder_of(target).join(format!(".codwalet-{process}-{number}"));
        match OpenOptions::new().write(true).create_new(true).open(&path) {
            Err(why) if why.kind() == io::ErrorKind::AlreadyExists => continue,
            opened => return opened.map(|file| (path, file)),
        }
    }
    Err(io::ErrorKind::AlreadyExists.into())
}

/// Links that are followed from a path; Linux follows no more.
const LINKS: usize = 40;

/// Where the links from a path lead, if a file is missing there; the path itself if they lead on and on.
fn end_of_links(path: &Path) -> PathBuf {
    let mut end = path.to_path_buf();
    for _ in 0..=LINKS {
        match fs::read_link(&end) {
            Ok(target) => end = folder_of(&end).join(target),
            Err(_) => return end,
        }
    }
    path.to_path_buf()
}

/// The folder that a path's last name is in.
fn folder_of(path: &Path) -> &Path {
    match path.parent() {
        Some(folder) if !folder.as_os_str().is_empty() => folder,
        _ => Path::new("."),
    }
}

/// What tells a file from others: two paths to one file have the same identity.
#[derive(Clone, Debug, PartialEq, Eq, Hash)]
pub enum Identity {
    /// The device and the number that the system knows the file by.
    Found { device: u64, number: u64 },
    /// Where a file would be made.
    Missing(PathBuf),
}

impl Identity {
    /// The identity of the file at a path; of `-`, that of standard input.
    pub fn of(path: &Path) -> Identity {
        let found = if is_standard(path) { metadata_of(&io::stdin()) } else { fs::metadata(path) };
        if let Ok(found) = found {
            return Identity::found(&found);
        }
        let end = end_of_links(path);
        let name = end.file_name().unwrap_or_default();
        Identity::Missing(fs::canonicalize(folder_of(&end)).map_or(end.clone(), |folder| folder.join(name)))
    }

    /// The identity of standard output. There is none where all that is written is thrown away.
    pub fn of_output() -> Option<Identity> {
        let output = Identity::found(&metadata_of(&io::stdout()).ok()?);
        (output != Identity::of(Path::new("/dev/null"))).then_some(output)
    }

    fn found(found: &Metadata) -> Identity {
        Identity::Found { device: found.dev(), number: found.ino() }
    }
}

/// What the system knows of a file that is open.
fn metadata_of(open: &impl AsFd) -> io::Result<Metadata> {
    File::from(open.as_fd().try_clone_to_owned()?).metadata()
}
