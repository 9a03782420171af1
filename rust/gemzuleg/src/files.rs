//! Reading files and standard input, and the file's name in messages and tables.

use crate::mending;
use crate::refusals::Refusal;
use crate::sheet_words;
use crate::stop::{Answer, Stop};
use std::io::{self, Read};
use std::path::Path;

/// More than this is read of no sheet: it has long been refused.
const MOST_OF_A_SHEET: u64 = 1 << 20;
/// EBADF: a stream that was closed at the start.
const CLOSED: i32 = 9;

/// The system's words alone, without Rust's number behind them.
pub fn words(error: &io::Error) -> String {
    let text = error.to_string();
    match text.find(" (os error ") {
        Some(end) => text[..end].to_string(),
        None => text,
    }
}

fn failed(file: &str, error: &io::Error) -> Stop {
    Stop::Failed(file.to_string(), words(error))
}

fn bytes(file: &str, most: u64) -> io::Result<Vec<u8>> {
    let mut text = Vec::new();
    if file != "-" {
        std::fs::File::open(Path::new(file))?.take(most).read_to_end(&mut text)?;
    } else if portal::was_closed(0) {
        return Err(io::Error::from_raw_os_error(CLOSED));
    } else {
        io::stdin().lock().take(most).read_to_end(&mut text)?;
    }
    Ok(text)
}

/// All bytes of a file; of standard input where it is called `-`.
pub fn read(file: &str) -> Answer<Vec<u8>> {
    bytes(file, u64::MAX).map_err(|error| failed(file, &error))
}

/// The bytes of a file that is to be a sheet.
pub fn read_sheet(file: &str) -> Answer<Vec<u8>> {
    bytes(file, MOST_OF_A_SHEET).map_err(|error| failed(file, &error))
}

/// The bytes of a file of hand-ins or kinds, which is read line by line.
pub fn read_lines(file: &str) -> Answer<Vec<u8>> {
    one_byte_letters(file, read(file)?)
}

/// 2: no line of UTF-16 can be read, so that this is told once.
fn one_byte_letters(file: &str, text: Vec<u8>) -> Answer<Vec<u8>> {
    if !mending::is_wide(&text) {
        return Ok(text);
    }
    let (place, sentence) = (file.to_string(), sheet_words::WIDE.to_string());
    Err(Refusal { place, sentence, number: 2, shown: None }.into())
}

/// All bytes of a file of hand-ins, or nothing where there is none of this name.
pub fn read_if_there(file: &str) -> Answer<Option<Vec<u8>>> {
    match bytes(file, u64::MAX) {
        Ok(text) => one_byte_letters(file, text).map(Some),
        Err(error) if error.kind() == io::ErrorKind::NotFound => Ok(None),
        Err(error) => Err(failed(file, &error)),
    }
}

/// A file's name as a field of a table.
pub fn as_field(file: &str) -> String {
    let plain = |byte: u8| byte.is_ascii_alphanumeric() || b"._/-".contains(&byte);
    file.bytes().map(|byte| if plain(byte) { char::from(byte) } else { '_' }).collect()
}

/// A closed standard output takes no answer, whatever stands in its place.
pub fn output_closed() -> Option<io::Error> {
    portal::was_closed(1).then(|| io::Error::from_raw_os_error(CLOSED))
}
