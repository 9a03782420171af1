//! A drawing saved: the answer and every byte of the buffer, with exact room, one byte less, and some
//! to spare; and of what was written, that it is read as the same drawing with nothing held.

use crate::compare::{Difference, Subject};
use crate::living::Life;
use crate::words::{setup_said, words_of};
use brute::cases::living::{beginning, random_edit};
use brute::cases::Rng;
use brute::save::{save, saved};
use brute::sheet;
use portal::{SAVE_BYTES, WORDS};

type Outcome = Result<(), Box<Difference>>;

/// How many saves gave a sheet, and how many each refusal, by 0 for the sheet's own, 12, 13 and 15.
#[derive(Debug, Default)]
pub struct Saves {
    pub written: usize,
    pub refused: [usize; 4],
}

impl Saves {
    fn count(&mut self, number: u64) {
        match number {
            0 => self.written += 1,
            12 => self.refused[1] += 1,
            13 => self.refused[2] += 1,
            15 => self.refused[3] += 1,
            _ => self.refused[0] += 1,
        }
    }

    /// Did each end come up often enough to tell a mistake?
    pub fn enough(&self) -> bool {
        self.written >= 2_000 && self.refused.iter().all(|&many| many >= 50)
    }
}

/// Saves what the words say under the names of a sheet, in buffers of several lengths.
pub fn compare_saves(
    subject: &Subject,
    rng: &mut Rng,
    names: &[u8],
    words: &[u64],
    seen: &mut Saves,
) -> Outcome {
    let setup = setup_said(words);
    let text = saved(names, &setup);
    let size = text.as_ref().map_or(rng.below(40), Vec::len);
    for places in [size + rng.below(9), size, size.saturating_sub(1), 0] {
        let mut proved: Vec<u8> = (0..places).map(|at| b'!' + (at % 90) as u8).collect();
        let mut plain = proved.clone();
        let answer = portal::write_sheet(names, words, &mut proved);
        let told = save(names, &setup, &mut plain);
        let named = || format!("saved, in {places} places: number and length");
        subject.same(named, (answer.number, answer.length), (told.number, told.length))?;
        subject.same(|| format!("saved, the buffer of {places}"), &proved, &plain)?;
        seen.count(answer.number);
    }
    let Ok(text) = text else { return Ok(()) };
    subject.same(
        || "a sheet that is too long to save".to_string(),
        text.len() <= SAVE_BYTES,
        true,
    )?;
    let mut again = vec![u64::MAX; WORDS];
    subject.same(|| "is it read again?".to_string(), portal::read(&text, &mut again).number, 0)?;
    let wanted = words_of(&setup.nothing_held()).expect("what is saved can be said in words");
    subject.same(|| "what is read again".to_string(), &again, &wanted)?;
    subject.same(
        || "its names".to_string(),
        sheet::read(&text).map(|read| read.names_in(&text)),
        sheet::read(names).map(|read| read.names_in(names)[..setup.count as usize].to_vec()),
    )
}

/// The longest sheet: 64 names of 16 bytes, 14 of them with start and loss of ten digits, 256 edges.
pub fn longest() -> Vec<u8> {
    let name = |item: usize| format!("longest_name_{item:03}");
    let mut text = String::from("name kind start loss rank\n");
    for item in 0..64 {
        let value = if item < 14 { "4000000000" } else { "-" };
        text += &format!("{} a {value} {value} 9\n", name(item));
    }
    text += "\nfrom to colour rec\n";
    for edge in 0..256 {
        text += &format!("{} {} {} 1\n", name(edge % 64), name(edge / 4), edge % 4);
    }
    text.into_bytes()
}

/// The sheet at the bound is saved as it is, in exactly that many bytes.
pub fn compare_longest(rng: &mut Rng) -> Outcome {
    let text = longest();
    let subject = Subject { label: "the longest sheet", sheet: Some(&text), setup: None };
    subject.same(|| "its length".to_string(), text.len(), SAVE_BYTES)?;
    let mut words = vec![0; WORDS];
    subject.same(|| "its reading".to_string(), portal::read(&text, &mut words).number, 0)?;
    compare_saves(&subject, rng, &text, &words, &mut Saves::default())
}

/// Lists of calls on a freshly read sheet with saves in between, under its own names; then under the
/// names of another sheet, of a damaged one, and of words that say no setup.
pub fn compare_saved_lives(rng: &mut Rng, count: usize) -> Result<Saves, Box<Difference>> {
    let mut seen = Saves::default();
    for number in 0..count {
        let text = beginning(rng, number).text();
        let label = format!("a list of calls with saves in between, {number}");
        let behind = vec![u64::MAX; number % 3];
        let mut life = Life::read(&text, &behind);
        for _ in 0..rng.between(1, 12) {
            let edit = random_edit(rng, &life.setup);
            life.step(&label, edit)?;
            if rng.chance(1, 3) {
                let subject =
                    Subject { label: &label, sheet: Some(&text), setup: Some(&life.setup) };
                compare_saves(&subject, rng, &text, &life.words, &mut seen)?;
            }
        }
        let many = rng.below(40);
        let other = beginning(rng, many).text();
        let cut = &text[..rng.below(text.len() + 1)];
        let mut strange = life.words.clone();
        if rng.chance(1, 2) {
            strange[1 + 4 * rng.below(64)] = 2;
        } else {
            strange.truncate(rng.below(WORDS));
        }
        let subject = Subject { label: &label, sheet: Some(&other), setup: Some(&life.setup) };
        compare_saves(&subject, rng, &other, &life.words, &mut seen)?;
        compare_saves(&subject, rng, cut, &life.words, &mut seen)?;
        compare_saves(&subject, rng, &text, &strange, &mut seen)?;
    }
    Ok(seen)
}
