//! Files read whole, and what is said of a file that can't be used.

use crate::shown::shown;
use crate::stop::Stop;
use std::ffi::OsStr;
use std::fs::{self, File};
use std::io::{self, ErrorKind, Read};

/// Bytes read at once.
const AT_ONCE: usize = 1 << 16;

/// What messages call a file.
pub fn called(file: &OsStr) -> String {
    match file.as_encoded_bytes() {
        b"-" => "standard input".into(),
        b"" => "''".into(),
        _ => shown(file),
    }
}

/// A reason and what to do about it.
fn reason(error: &io::Error) -> String {
    match error.kind() {
        ErrorKind::NotFound => "there is no such file or folder; check the path".into(),
        ErrorKind::IsADirectory => "it is a folder; name a file".into(),
        ErrorKind::NotADirectory => "a part of the path is no folder; check the path".into(),
        ErrorKind::PermissionDenied => "permission is denied; check who may use it".into(),
        ErrorKind::StorageFull => "the disk is full; make room or write elsewhere".into(),
        ErrorKind::FileTooLarge => "a file may not be so large here; raise the limit or write elsewhere".into(),
        ErrorKind::ReadOnlyFilesystem => "the disk is read-only; write elsewhere".into(),
        ErrorKind::OutOfMemory => "there is not enough memory for it; use a smaller file or free memory".into(),
        _ => format!("{error}; check the file and its disk"),
    }
}

/// A read that failed.
pub fn not_read(file: &OsStr, error: &io::Error) -> Stop {
    Stop::File(format!("cannot read {}: {}", called(file), reason(error)))
}

/// A write that failed.
pub fn not_written(file: &str, error: &io::Error) -> Stop {
    Stop::File(format!("cannot write {file}: {}", reason(error)))
}

/// The bytes of a file, or of standard input for `-`.
pub fn read(file: &OsStr) -> Result<Vec<u8>, Stop> {
    let bytes = if file == "-" { read_standard_input() } else { fs::read(file) };
    bytes.map_err(|error| not_read(file, &error))
}

fn read_standard_input() -> io::Result<Vec<u8>> {
    let mut bytes = Vec::new();
    io::stdin().lock().read_to_end(&mut bytes)?;
    Ok(bytes)
}

/// A file of 32-bit words, each made from its four little-endian bytes.
pub fn read_words<T>(file: &OsStr, word: impl Fn([u8; 4]) -> T) -> Result<Vec<T>, Stop> {
    let mut words = Vec::new();
    match fill(file, &mut words, word) {
        Ok(0) => Ok(words),
        Ok(rest) => Err(Stop::File(format!(
            "cannot use {}: {} bytes are no multiple of 4, so it is cut short or holds something else; check how it was made",
            called(file),
            words.len() * 4 + rest
        ))),
        Err(error) => Err(not_read(file, &error)),
    }
}

/// Adds the words of a file and answers how many bytes are left over.
fn fill<T>(file: &OsStr, words: &mut Vec<T>, word: impl Fn([u8; 4]) -> T) -> io::Result<usize> {
    let mut source: Box<dyn Read> = if file == "-" {
        Box::new(io::stdin().lock())
    } else {
        let open = File::open(file)?;
        words.try_reserve_exact(open.metadata()?.len() as usize / 4)?;
        Box::new(open)
    };
    let mut piece = Vec::with_capacity(AT_ONCE);
    loop {
        piece.clear();
        source.by_ref().take(AT_ONCE as u64).read_to_end(&mut piece)?;
        let (fours, rest) = piece.as_chunks::<4>();
        words.try_reserve(fours.len())?;
        words.extend(fours.iter().map(|&four| word(four)));
        if piece.len() < AT_ONCE {
            return Ok(rest.len());
        }
    }
}

/// So many zeros, if there is memory for them.
pub fn zeros(count: usize) -> Result<Vec<i32>, Stop> {
    let mut all = Vec::new();
    match all.try_reserve_exact(count) {
        Ok(()) => all.resize(count, 0),
        Err(_) => {
            return Err(Stop::File(format!(
                "there is not enough memory for {count} nodes; use a smaller file or free memory"
            )));
        }
    }
    Ok(all)
}
