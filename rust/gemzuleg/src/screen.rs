//! What goes to standard output, the answer and nothing else, and to standard error.

use crate::files;
use crate::stop::{Answer, Stop};
use crate::tables;
use std::io::{self, IsTerminal, Write};
use std::sync::atomic::{AtomicBool, Ordering};

/// Does a line of progress stand on the terminal?
static PROGRESS: AtomicBool = AtomicBool::new(false);
const BLANK_LINE: &str = "\r\x1b[K";

/// Tells something on standard error; a file's name may have signs that move a terminal's cursor, which are
/// shown as `?`. Where nothing can be written there is nobody to tell.
pub fn tell(text: &str) {
    progress_over();
    let shown = |sign: char| if sign.is_control() && sign != '\n' { '?' } else { sign };
    let text: String = text.chars().map(shown).collect();
    let _ = io::stderr().write_all(text.as_bytes());
}

/// Shows on a terminal, and only there, how far it is.
pub fn progress(at: usize, of: usize, file: &str) {
    if of > 1 && io::stderr().is_terminal() {
        PROGRESS.store(true, Ordering::Relaxed);
        let line = format!("{BLANK_LINE}lab {at} of {of}: {}", files::as_field(file));
        let _ = io::stderr().write_all(line.as_bytes());
    }
}

/// Takes the line of progress away.
pub fn progress_over() {
    if PROGRESS.swap(false, Ordering::Relaxed) {
        let _ = io::stderr().write_all(BLANK_LINE.as_bytes());
    }
}

/// Writes bytes; the system's words where it can't. A reader that has gone ends the command quietly: from here on,
/// since a program that was given a sheet may go too.
fn write(bytes: &[u8]) -> Answer<()> {
    portal::end_with_the_reader();
    let mut out = io::stdout().lock();
    let closed = files::output_closed().filter(|_| !bytes.is_empty());
    let written = match closed {
        Some(error) => Err(error),
        None => out.write_all(bytes).and_then(|()| out.flush()),
    };
    written.map_err(|error| Stop::Failed("standard output".to_string(), files::words(&error)))
}

/// Writes an answer that is no table.
pub fn plain(bytes: &[u8]) -> Answer<()> {
    write(bytes)
}

/// Writes tables, padded on a terminal.
pub fn tables(text: &str) -> Answer<()> {
    if io::stdout().is_terminal() {
        write(tables::padded(text).as_bytes())
    } else {
        write(text.as_bytes())
    }
}

/// A table whose rows go out as they come; on a terminal together, since they are padded.
pub struct Rows {
    kept: String,
}

impl Rows {
    /// With this header.
    pub fn new(header: &str) -> Rows {
        Rows { kept: format!("{header}\n") }
    }

    /// A row more.
    pub fn row(&mut self, row: &str) {
        self.kept += row;
        self.kept.push('\n');
    }

    /// What stands above a refusal goes out before it.
    pub fn before_refusal(&mut self) -> Answer<()> {
        if io::stdout().is_terminal() {
            return Ok(());
        }
        write(std::mem::take(&mut self.kept).as_bytes())
    }

    /// The rest.
    pub fn end(self) -> Answer<()> {
        tables(&self.kept)
    }
}
