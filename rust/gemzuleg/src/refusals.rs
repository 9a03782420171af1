//! A refusal as people read it: where, a sentence, the number; the line, and carets below what is meant.

use std::ops::Range;

/// The most bytes of a line that are shown.
const SHOWN: usize = 200;

/// A refusal in words.
#[derive(Debug, Default)]
pub struct Refusal {
    /// `FILE`, `FILE:LINE`, or the argument in quotes.
    pub place: String,
    /// What is wrong, and how it is mended.
    pub sentence: String,
    /// The proved call's number.
    pub number: u64,
    /// The line that is shown, and the part of it that is meant: an empty one where all of it is.
    pub shown: Option<(Vec<u8>, Range<usize>)>,
}

impl Refusal {
    /// A refusal of an argument.
    pub fn of_argument(argument: &str, sentence: String, number: u64) -> Refusal {
        let place = format!("'{}'", printable(argument.as_bytes()));
        Refusal { place, sentence, number, shown: None }
    }

    /// What standard error gets.
    pub fn text(&self) -> String {
        let Refusal { place, sentence, number, shown } = self;
        let mut text = format!("{place}: {sentence} [{number}]\n");
        if let Some((line, part)) = shown {
            let line = &line[..line.len().min(SHOWN)];
            text += &format!("    {}\n", printable(line));
            let end = part.end.min(line.len());
            if part.start < end {
                let (blanks, carets) = (" ".repeat(part.start), "^".repeat(end - part.start));
                text += &format!("    {blanks}{carets}\n");
            }
        }
        text
    }
}

/// The bytes as they can be shown: odd ones as `?`.
pub fn printable(bytes: &[u8]) -> String {
    let shown = |&byte: &u8| if (32..=126).contains(&byte) { char::from(byte) } else { '?' };
    bytes.iter().map(shown).collect()
}
