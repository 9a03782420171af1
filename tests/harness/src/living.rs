//! Calls that change a setup, in the buffer that is lent: the number and every word after each call
//! are compared with the brute force's.

use crate::compare::{Difference, Subject};
use crate::setups::{compare_unheeding, FEW, MANY};
use crate::words::{setup_said, words_of};
use brute::cases::living::{beginning, living_cases, random_edit, Met, CALLS};
use brute::cases::setups::hold;
use brute::cases::{probes, Rng};
use brute::living::{Edit, Named};
use brute::sheet;
use brute::Setup;
use portal::{HELD, OPENED, WORDS};

type Outcome = Result<(), Box<Difference>>;

/// How long a buffer is: longer by any words, just long enough, without its last words, or of any length.
fn some_length(rng: &mut Rng) -> usize {
    let any = rng.below(WORDS + 1);
    *rng.pick(&[WORDS + 3, WORDS, WORDS - 1, HELD, any])
}

/// The call of the product, in place.
pub fn proved(words: &mut [u64], edit: Edit) -> u64 {
    match edit {
        Edit::TakeIn(item) => portal::take_in(words, item),
        Edit::TakeOut(item) => portal::take_out(words, item),
        Edit::Add(Named { from, to, colour }, marked) => {
            portal::add_edge(words, from, to, colour, marked)
        }
        Edit::Remove(Named { from, to, colour }) => portal::remove_edge(words, from, to, colour),
    }
}

/// The number and the words that the brute force expects: nothing but an accepted call writes a word.
fn expected(words: &[u64], setup: &Setup, edit: Edit) -> (u64, Vec<u64>) {
    let mut words = words.to_vec();
    let number = match edit.on(setup) {
        Err(number) => number.into(),
        Ok(after) => {
            let front = words_of(&after).expect("what a call leaves can be said in words");
            words[..WORDS].copy_from_slice(&front);
            0
        }
    };
    (number, words)
}

/// Compares one call on a buffer with any words in it, of any length. What comes back is its number.
pub fn compare_call(subject: &Subject, words: &[u64], edit: Edit) -> Result<u64, Box<Difference>> {
    let (number, after) = expected(words, &setup_said(words), edit);
    let mut lent = words.to_vec();
    let told = proved(&mut lent, edit);
    let named = || format!("{edit:?} in {} words: number and changed words", words.len());
    let changes = |now: &[u64]| -> Vec<(usize, u64)> {
        let pairs = now.iter().zip(words).enumerate();
        pairs.filter(|(_, (now, before))| now != before).map(|(at, (&now, _))| (at, now)).collect()
    };
    subject.same(named, (told, changes(&lent)), (number, changes(&after)))?;
    Ok(number)
}

/// A setup that lives: as the brute force has it, and in the buffer that the product's calls change.
#[derive(Clone)]
pub struct Life {
    /// The brute force's.
    pub setup: Setup,
    /// The product's, and what stands behind it.
    pub words: Vec<u64>,
}

impl Life {
    /// A freshly read setup, in a buffer with any words behind it.
    pub fn read(text: &[u8], behind: &[u64]) -> Life {
        let mut words = vec![u64::MAX; WORDS];
        words.extend(behind);
        assert_eq!(portal::read(text, &mut words).number, 0, "the sheet of a life is read");
        Life { setup: sheet::setup_of(text), words }
    }

    /// A call on both: the number and every word are compared. What comes back is its number.
    pub fn step(&mut self, label: &str, edit: Edit) -> Result<u8, Box<Difference>> {
        let mut wanted = self.words.clone();
        let after = edit.on(&self.setup);
        if let Ok(after) = &after {
            let front = words_of(after).expect("what a call leaves can be said in words");
            wanted[..WORDS].copy_from_slice(&front);
        }
        let number = after.as_ref().err().copied().unwrap_or(0);
        let told = proved(&mut self.words, edit);
        let subject = Subject { label, sheet: None, setup: Some(&self.setup) };
        let named = || format!("{edit:?}: number, held, opened");
        let sets = |words: &[u64]| (words[HELD], words[OPENED]);
        let wanted_sets = (u64::from(number), sets(&wanted));
        subject.same(named, (told, sets(&self.words)), wanted_sets)?;
        subject.same(|| format!("{edit:?}: words"), &self.words, &wanted)?;
        if let Ok(after) = after {
            self.setup = after;
        }
        Ok(number)
    }
}

/// The answers that were worked out by hand.
pub fn compare_living_cases() -> Outcome {
    for case in living_cases() {
        let label = &case.case.label;
        let mut life = Life::read(&case.case.sheet, &[7, 8]);
        if let Some((item, before, _)) = case.backdoor {
            let yes = portal::backdoor(&life.words, item).yes;
            assert_eq!(yes, u64::from(before), "{label}: a backdoor at first");
        }
        for step in &case.steps {
            let before = life.words.clone();
            let number = proved(&mut life.words, step.edit);
            let subject = Subject { label, sheet: Some(&case.case.sheet), setup: None };
            let named = || format!("{:?}: number, held, opened", step.edit);
            let sets = (number, life.words[HELD], life.words[OPENED]);
            subject.same(named, sets, (step.number.into(), step.held, step.opened))?;
            let named = || format!("{:?}: is a refused call's buffer as it was?", step.edit);
            subject.same(named, number == 0 || before == life.words, true)?;
        }
        if let Some((item, _, after)) = case.backdoor {
            let yes = portal::backdoor(&life.words, item).yes;
            assert_eq!(yes, u64::from(after), "{label}: a backdoor in the end");
        }
    }
    Ok(())
}

/// Random lists of 1 to 60 calls, each from a freshly read sheet; then every other call on the last
/// setup, against the brute force on the same setup with nothing held.
pub fn compare_lives(rng: &mut Rng, count: usize) -> Result<Met, Box<Difference>> {
    let mut met = Met::default();
    for number in 0..count {
        let text = beginning(rng, number).text();
        let label = format!("a list of calls that change the setup, {number}");
        let behind = probes::lent_sets(rng, number % 3);
        let mut life = Life::read(&text, &behind);
        for _ in 0..rng.between(1, CALLS) {
            let edit = random_edit(rng, &life.setup);
            if rng.chance(1, 8) {
                let subject = Subject { label: &label, sheet: None, setup: Some(&life.setup) };
                let number = compare_other_lengths(&subject, rng, &life.words, edit)?;
                met.count_other_length(number);
            }
            let before = life.setup.clone();
            let number = life.step(&label, edit)?;
            met.count(&before, edit, number, &life.setup);
        }
        // At the bounds the brute force takes long.
        let depth = if life.setup.starting().len() > 9 { FEW } else { MANY };
        compare_unheeding(&label, &life.setup, rng, depth)?;
    }
    Ok(met)
}

/// The same call in a buffer of another length, and with words of its own behind the setup. What comes
/// back is its number.
fn compare_other_lengths(
    subject: &Subject,
    rng: &mut Rng,
    words: &[u64],
    edit: Edit,
) -> Result<u64, Box<Difference>> {
    let length = some_length(rng);
    let mut other = words.to_vec();
    other.resize(WORDS + 3, u64::MAX);
    other.truncate(length);
    compare_call(subject, &other, edit)
}

/// Calls of each sort on any setup, malformed ones too, in buffers of several lengths.
pub fn compare_any(
    subject: &Subject,
    rng: &mut Rng,
    words: &[u64],
    setup: &Setup,
    many: usize,
) -> Outcome {
    let first = rng.below(4);
    for number in 0..many {
        let count = setup.count.clamp(1, 64) as usize;
        let (from, to) = (rng.below(count) as u64, rng.below(count) as u64);
        let edge = Named { from, to, colour: rng.below(8) as u64 };
        // One of each sort that question 13 passes, beginning with any sort; then any call.
        let edit = match (number, (first + number) % 4) {
            (4.., _) => random_edit(rng, setup),
            (_, 0) => Edit::TakeIn(from),
            (_, 1) => Edit::TakeOut(from),
            (_, 2) => Edit::Add(edge, rng.chance(1, 2)),
            _ => Edit::Remove(edge),
        };
        compare_call(subject, words, edit)?;
        compare_other_lengths(subject, rng, words, edit)?;
    }
    Ok(())
}

/// All graphs of two items and two colours with every choice of recovery edges and held items, and the
/// 28 calls on each of these 26,244 setups. A call has nothing but its buffer to go by, and each is held
/// to leave one of these setups again: so every list of calls, of 3 and of any other number, is made of
/// calls that were compared here. Calls whose numbers are refused are made on each graph once.
pub fn compare_every_step() -> Result<usize, Box<Difference>> {
    let (calls, strange) = (every_call(), strange_calls());
    let fresh = two_items(0, 0).setup;
    let mut compared = 0;
    for drawing in 0..DRAWINGS {
        for held in 0..4 {
            let label = format!("two items and two colours, drawing {drawing}, held {held}");
            let life = two_items(drawing, held);
            let refused: &[Edit] = if drawing % 4 == held { &strange } else { &[] };
            for &edit in calls.iter().chain(refused) {
                let mut next = life.clone();
                let number = next.step(&label, edit)?;
                let again = number != 0 || is_of_two_items(&fresh, &next.setup);
                assert!(again, "{label}: {edit:?} leaves another setup");
                compared += 1;
            }
        }
    }
    Ok(compared)
}

/// All lists of up to 3 of the 28 calls on one graph of two items and two colours, from nothing held,
/// call by call in one buffer. What comes back is how many lists there were.
pub fn compare_short_lists(drawing: u64) -> Result<usize, Box<Difference>> {
    let label = format!("lists of up to 3 calls on drawing {drawing}");
    longer_lists(&label, &two_items(drawing, 0), &every_call(), 3)
}

/// The list that has led to a setup, and all that are longer by up to so many calls.
fn longer_lists(
    label: &str,
    life: &Life,
    calls: &[Edit],
    more: usize,
) -> Result<usize, Box<Difference>> {
    let mut lists = 1;
    if more > 0 {
        for &edit in calls {
            let mut next = life.clone();
            next.step(label, edit)?;
            lists += longer_lists(label, &next, calls, more - 1)?;
        }
    }
    Ok(lists)
}

/// The graphs of two items and two colours: each of eight edges is not there, there, or marked.
pub const DRAWINGS: u64 = 3u64.pow(8);

/// Two accounts, one of which starts and can be lost, in colours 0 and 7, with a drawing's edges.
fn two_items(drawing: u64, held: u64) -> Life {
    let text = b"name kind start loss rank\np a 1 1 0\nq a - - 1\n\nfrom to colour rec\n";
    let mut setup = sheet::setup_of(text);
    let mut left = drawing;
    for Named { from, to, colour } in every_edge() {
        let (place, colour) = (&mut setup.places[to as usize], colour as usize);
        place.rows[colour] |= u64::from(left % 3 > 0) << from;
        place.recovery[colour] |= u64::from(left % 3 > 1) << from;
        left /= 3;
    }
    hold(&mut setup, held);
    let words = words_of(&setup).expect("two items can be said in words");
    Life { setup, words }
}

/// Is it one of these setups: the two items as they were read, some of the eight edges, recovery edges
/// among them, held items, and what these open?
fn is_of_two_items(fresh: &Setup, setup: &Setup) -> bool {
    let mut bare = setup.clone();
    for Named { from, to, colour } in every_edge() {
        let (place, colour) = (&mut bare.places[to as usize], colour as usize);
        place.rows[colour] &= !(1 << from);
        place.recovery[colour] &= !(1 << from);
    }
    bare == Setup { held: setup.held, opened: setup.opened, ..fresh.clone() } && setup.well_formed()
}

/// The eight edges that there can be.
fn every_edge() -> impl Iterator<Item = Named> {
    let ends = [(0, 0), (0, 1), (1, 0), (1, 1)].into_iter();
    ends.flat_map(|(from, to)| [0, 7].map(|colour| Named { from, to, colour }))
}

/// The calls on an edge.
fn calls_on(edge: Named) -> [Edit; 3] {
    [Edit::Add(edge, false), Edit::Add(edge, true), Edit::Remove(edge)]
}

/// The 28 calls on two items and two colours.
fn every_call() -> Vec<Edit> {
    let items = (0..2).flat_map(|item| [Edit::TakeIn(item), Edit::TakeOut(item)]);
    items.chain(every_edge().flat_map(calls_on)).collect()
}

/// Calls with an item, an end or a colour that is not there.
fn strange_calls() -> Vec<Edit> {
    let strange = [(2, 0, 0), (0, 2, 0), (2, 2, 8), (0, 0, 8)];
    let edges = strange.map(|(from, to, colour)| Named { from, to, colour });
    [Edit::TakeIn(2), Edit::TakeOut(2)]
        .into_iter()
        .chain(edges.into_iter().flat_map(calls_on))
        .collect()
}
