//! What a command prints: standard output in its format and in large pieces, and words on standard error behind it.

use crate::files;
use crate::formats::Format;
use crate::stop::Stop;
use std::io::{self, ErrorKind, Write};

/// So many bytes don't wait any longer.
const ENOUGH: usize = 1 << 16;

#[derive(Default)]
pub struct Output {
    pub format: Format,
    waiting: Vec<u8>,
}

impl Output {
    /// Puts text on standard output.
    pub fn put(&mut self, text: impl AsRef<[u8]>) -> Result<(), Stop> {
        self.waiting.extend_from_slice(text.as_ref());
        if self.waiting.len() < ENOUGH { Ok(()) } else { self.flush() }
    }

    /// Writes what waits. A reader that went away has seen enough.
    pub fn flush(&mut self) -> Result<(), Stop> {
        let text = std::mem::take(&mut self.waiting);
        let mut out = io::stdout().lock();
        out.write_all(&text).and_then(|()| out.flush()).map_err(|error| match error.kind() {
            ErrorKind::BrokenPipe => Stop::Gone,
            _ => files::not_written("standard output", &error),
        })
    }

    /// Says something on standard error, behind all that was put on standard output.
    pub fn say(&mut self, words: &str) -> Result<(), Stop> {
        self.flush()?;
        let _ = write!(io::stderr(), "{words}");
        Ok(())
    }
}
