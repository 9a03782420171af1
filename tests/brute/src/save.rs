//! A drawing saved: the sheet of a setup, under the names of a sheet. Written from the words of
//! `docs/DECISIONS.md`, by rows as a person would write them.

use crate::setup::{holds, Place, Setup, COLOURS, PLACES};
use crate::sheet::{self, EDGE_HEADER, ITEM_HEADER};

/// What saving answers.
#[derive(Clone, Copy, Debug, PartialEq, Eq)]
pub struct Saved {
    /// 0 for an answer, else the refusal's number.
    pub number: u64,
    /// How many bytes the sheet has.
    pub length: u64,
}

/// The sheet of a setup, or the number of the no: the sheet's own, 12, 13.
pub fn saved(names: &[u8], setup: &Setup) -> Result<Vec<u8>, u64> {
    let read = sheet::read(names).map_err(|no| u64::from(no.number))?;
    if !setup.well_formed() {
        return Err(12);
    }
    if read.setup.count < setup.count {
        return Err(13);
    }
    let names = read.names_in(names);
    let mut lines = vec![String::from_utf8_lossy(ITEM_HEADER).into_owned()];
    lines.extend(setup.used().iter().zip(&names).map(|(place, name)| item_row(place, name)));
    lines.push(String::new());
    lines.push(String::from_utf8_lossy(EDGE_HEADER).into_owned());
    // By the item that an edge leads to, then its colour, then the needed item.
    for (to, place) in setup.used().iter().enumerate() {
        for colour in 0..COLOURS {
            for from in (0..PLACES).filter(|&from| holds(place.rows[colour], from)) {
                let marked = u8::from(holds(place.recovery[colour], from));
                lines.push(format!("{} {} {colour} {marked}", names[from], names[to]));
            }
        }
    }
    Ok((lines.join("\n") + "\n").into_bytes())
}

fn item_row(place: &Place, name: &str) -> String {
    let value = |value: Option<u64>| value.map_or("-".to_string(), |value| value.to_string());
    let (start, loss) = (value(place.start), value(place.loss));
    format!("{name} {} {start} {loss} {}", char::from(place.kind), place.rank)
}

/// The sheet written to the front of a buffer; 15 where the buffer is shorter. A refusal changes
/// nothing.
pub fn save(names: &[u8], setup: &Setup, out: &mut [u8]) -> Saved {
    match saved(names, setup) {
        Err(number) => Saved { number, length: 0 },
        Ok(text) if text.len() > out.len() => Saved { number: 15, length: 0 },
        Ok(text) => {
            out[..text.len()].copy_from_slice(&text);
            Saved { number: 0, length: text.len() as u64 }
        }
    }
}

#[cfg(test)]
mod tests {
    use super::*;

    const DOCUMENT: &[u8] = b"name kind start loss rank\nordpw c 1 2 0\nmailpw c 1 1 0\n\
        token c 3 2 0\nmail a - - 1\norder a - - 3\n\nfrom to colour rec\nmailpw mail 0 0\n\
        ordpw order 0 0\ntoken order 0 0\nmail order 1 1\n";

    #[test]
    fn document_01_comes_back() {
        let read = sheet::read(DOCUMENT).expect("document 01's sheet is accepted");
        assert_eq!(saved(DOCUMENT, &read.setup), Ok(DOCUMENT.to_vec()));
        let mut held = read.setup.clone();
        (held.held, held.opened) = (2, 26);
        assert_eq!(saved(DOCUMENT, &held), Ok(DOCUMENT.to_vec()), "what is held is not saved");
    }

    #[test]
    fn refusals_come_in_order() {
        let setup = sheet::setup_of(DOCUMENT);
        let short = b"name kind start loss rank\na c 1 2 0\n\nfrom to colour rec\n";
        assert_eq!(saved(b"", &Setup::empty()), Err(2));
        assert_eq!(saved(short, &Setup::empty()), Err(12));
        assert_eq!(saved(short, &setup), Err(13));
        let mut out = vec![7; DOCUMENT.len()];
        assert_eq!(save(DOCUMENT, &setup, &mut out[1..]), Saved { number: 15, length: 0 });
        assert_eq!(out, vec![7; DOCUMENT.len()]);
        assert_eq!(save(DOCUMENT, &setup, &mut out).length, DOCUMENT.len() as u64);
        assert_eq!(out, DOCUMENT);
    }
}
