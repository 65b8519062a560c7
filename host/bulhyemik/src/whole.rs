//! A file of nodes that appears whole or not at all.

use crate::files::{called, not_written};
use crate::signals::Doomed;
use crate::stop::Stop;
use std::ffi::OsStr;
use std::fs::{self, File, Metadata, OpenOptions};
use std::io::{self, ErrorKind, Write};
use std::os::unix::fs::{MetadataExt, fchown};
use std::path::{Path, PathBuf};

/// Nodes written at once.
const AT_ONCE: usize = 1 << 14;

/// Writes a file of little-endian words: beside its place first, then under its name. A file that stands there keeps its mode.
pub fn write_words(file: &OsStr, words: &[i32]) -> Result<(), Stop> {
    let (place, there) = target(file)?;
    replace(&place, there, words).map_err(|error| not_written(&called(file), &error))
}

/// Where a file will stand, and what stands there.
fn target(file: &OsStr) -> Result<(PathBuf, Option<Metadata>), Stop> {
    let failed = |error: io::Error| not_written(&called(file), &error);
    let no = |why: &str| Err(Stop::File(format!("cannot write {}: {why}", called(file))));
    let there = match fs::metadata(file) {
        Ok(there) => there,
        Err(_) if fs::symlink_metadata(file).is_ok_and(|link| link.is_symlink()) => {
            return no("it is a symbolic link that leads nowhere; mend the link or name a file");
        }
        Err(error) if error.kind() == ErrorKind::NotFound => return Ok((PathBuf::from(file), None)),
        Err(error) => return Err(failed(error)),
    };
    if there.is_dir() {
        return Err(failed(ErrorKind::IsADirectory.into()));
    }
    if !there.is_file() {
        return no("it is no regular file; name another");
    }
    OpenOptions::new().write(true).open(file).map_err(failed)?;
    Ok((fs::canonicalize(file).map_err(failed)?, Some(there)))
}

fn replace(place: &Path, there: Option<Metadata>, words: &[i32]) -> io::Result<()> {
    let Part { path, mut file, doomed } = Part::beside(place)?;
    let done = fill(&mut file, there, words).and_then(|()| fs::rename(&path, place));
    if done.is_err() {
        let _ = fs::remove_file(&path);
    }
    drop(doomed);
    done
}

/// The file while it is written, which goes with the process.
struct Part {
    path: PathBuf,
    file: File,
    doomed: Doomed,
}

impl Part {
    /// A new file in the same folder, of a name that nothing else uses.
    fn beside(place: &Path) -> io::Result<Part> {
        let mut k = 0;
        loop {
            let path = place.with_file_name(format!(".bulhyemik.{}.{k}.part", std::process::id()));
            let doomed = Doomed::new(&path);
            match OpenOptions::new().write(true).create_new(true).open(&path) {
                Err(error) if error.kind() == ErrorKind::AlreadyExists => k += 1,
                file => return file.map(|file| Part { path, file, doomed }),
            }
        }
    }
}

/// Gives the new file the owner and the mode of the one that it replaces, and its words.
fn fill(part: &mut File, there: Option<Metadata>, words: &[i32]) -> io::Result<()> {
    if let Some(there) = there {
        let new = part.metadata()?;
        if (new.uid(), new.gid()) != (there.uid(), there.gid()) {
            let _ = fchown(&*part, Some(there.uid()), Some(there.gid()));
        }
        part.set_permissions(there.permissions())?;
    }
    for piece in words.chunks(AT_ONCE) {
        let bytes: Vec<u8> = piece.iter().flat_map(|word| word.to_le_bytes()).collect();
        part.write_all(&bytes)?;
    }
    part.sync_all()
}
