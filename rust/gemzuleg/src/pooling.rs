//! `pool`: two labs' sheets as one.

use crate::files;
use crate::lab::Lab;
use crate::refusals::Refusal;
use crate::sheet_words;
use crate::stop::Answer;
use crate::words;
use portal::POOL_BYTES;

/// The pooled sheet of two files.
pub fn pool(first: &str, second: &str) -> Answer<String> {
    let (one, other) = (files::read_sheet(first)?, files::read_sheet(second)?);
    let mut out = vec![0; POOL_BYTES];
    let pooled = portal::pool(&one, &other, &mut out);
    match (pooled.number, pooled.sheet) {
        (0, _) => {
            let length = pooled.length as usize;
            Ok(out[..length].iter().map(|&byte| char::from(byte)).collect())
        }
        (number, 1) => Err(sheet_words::refusal(first, &one, number, pooled.line).into()),
        (number, 2) => Err(sheet_words::refusal(second, &other, number, pooled.line).into()),
        (22, _) => Err(disagreement([first, second], one, other)?.into()),
        (number, _) => {
            Err(together([first, second], words::sentence(number).to_string(), number).into())
        }
    }
}

/// A refusal of the two sheets together.
fn together(files: [&str; 2], sentence: String, number: u64) -> Refusal {
    Refusal { place: files.join(", "), sentence, number, shown: None }
}

/// 22: the first item of the first sheet that the second says something else of.
fn disagreement(files: [&str; 2], one: Vec<u8>, other: Vec<u8>) -> Answer<Refusal> {
    let (one, other) = (Lab::of(files[0], one)?, Lab::of(files[1], other)?);
    for item in 0..one.count() {
        let name = one.name(item)?;
        let Ok(same) = other.item(&name) else { continue };
        let (here, there) = (one.fields(item), other.fields(same));
        if here != there {
            let told = format!("'{name}' is '{here}' in the first and '{there}' in the second");
            return Ok(together(files, format!("{told}; the labs must agree first"), 22));
        }
    }
    Ok(together(files, words::sentence(22).to_string(), 22))
}
