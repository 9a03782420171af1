//! Bags of values: known ones, any two lists, and bag scores of setups with few different values.

use crate::compare::{told, Difference, Subject};
use crate::words::words_of;
use brute::bags;
use brute::calls::Calls;
use brute::cases::bags::{bags as known, several_ways, COMPARED};
use brute::cases::probes::lent_sets;
use brute::cases::random::random_draft;
use brute::cases::Rng;
use brute::setup::Setup;

type Outcome = Result<(), Box<Difference>>;

/// A list with at least this many values is a long one.
const LONG: usize = 7;
/// The fewest pairs of each kind that the gate compares.
const PAIRS: usize = 500;
/// The fewest scores of each kind that the gate compares.
const SCORES: usize = 100;

/// What was compared: pairs of two long bags with a yes and with a no, pairs with a list that is no
/// bag, and pairs with a yes whose first bag has fewer values.
#[derive(Debug, Default)]
pub struct Pairs {
    long_yes: usize,
    long_no: usize,
    no_bag: usize,
    fewer_yes: usize,
}

impl Pairs {
    pub fn enough(&self) -> bool {
        let Pairs { long_yes, long_no, no_bag, fewer_yes } = *self;
        [long_yes, long_no, no_bag, fewer_yes].iter().all(|&count| count >= PAIRS)
    }

    fn count(&mut self, one: &[u64], other: &[u64], yes: bool) {
        let (least, most) = (one.len().min(other.len()), one.len().max(other.len()));
        let long = least >= LONG && most <= bags::MOST;
        self.long_yes += usize::from(long && yes);
        self.long_no += usize::from(long && !yes);
        self.no_bag += usize::from(most > bags::MOST);
        self.fewer_yes += usize::from(yes && one.len() < other.len());
    }
}

/// What was compared: scores with two bags or more, with a bag that two sets have, and with a set
/// that only later ones drop; and refusals with 15 by either list alone.
#[derive(Debug, Default)]
pub struct Scores {
    several: usize,
    shared: usize,
    dropped_later: usize,
    short_values: usize,
    short_lengths: usize,
}

impl Scores {
    pub fn enough(&self) -> bool {
        let Scores { several, shared, dropped_later, short_values, short_lengths } = *self;
        let counts = [several, shared, dropped_later, short_values, short_lengths];
        counts.iter().all(|&count| count >= SCORES)
    }

    fn count(&mut self, sets: &[Vec<u64>], score: &[Vec<u64>]) {
        let below = |one: &Vec<u64>, other: &Vec<u64>| one != other && bags::at_most(one, other);
        let shared = |bag: &Vec<u64>| sets.iter().filter(|other| *other == bag).count() > 1;
        let later = |place: usize| {
            let (before, behind) = (&sets[..place], &sets[place + 1..]);
            let lower = |bag: &Vec<u64>| below(bag, &sets[place]);
            !before.iter().any(lower) && behind.iter().any(lower)
        };
        self.several += usize::from(score.len() > 1);
        self.shared += usize::from(score.iter().any(shared));
        self.dropped_later += usize::from((0..sets.len()).any(later));
        self.short_values += usize::from(!score.is_empty());
        self.short_lengths += usize::from(!score.is_empty());
    }
}

/// Holds what the calls tell to answers that were worked out by hand.
pub fn compare_known_bags() -> Outcome {
    for &(one, other, answer) in COMPARED {
        compared("known bags", one, other, answer)?;
    }
    for case in known() {
        let mut setup = vec![0; portal::WORDS];
        assert_eq!(portal::read(&case.case.sheet, &mut setup).number, 0, "{}", case.case.label);
        let many = case.bags.len();
        let lent = (vec![77; bags::MOST * many + 1], vec![88; many + 1]);
        let subject =
            Subject { label: &case.case.label, sheet: Some(&case.case.sheet), setup: None };
        compare_written(&subject, &setup, case.target, &Ok(case.bags), lent)?;
    }
    Ok(())
}

/// Pairs of lists of 0 to 16 values each, as many as there are rounds, and both ways round.
pub fn compare_bags(rng: &mut Rng, rounds: usize) -> Result<Pairs, Box<Difference>> {
    let mut pairs = Pairs::default();
    for _ in 0..rounds {
        let high = *rng.pick(&[1, 2, 4, 16]);
        let one = some_list(rng, high);
        let mut other = if rng.chance(1, 3) { one.clone() } else { some_list(rng, high) };
        rng.shuffle(&mut other);
        if rng.chance(1, 4) && !other.is_empty() {
            let place = rng.below(other.len());
            other[place] = other[place].wrapping_add(1);
        }
        for (one, other) in [(&one, &other), (&other, &one)] {
            let answer = bags::at_most(one, other);
            compared("two lists", one, other, answer)?;
            pairs.count(one, other, answer);
        }
    }
    Ok(pairs)
}

/// A list of values below the bound, or now and then of any numbers.
fn some_list(rng: &mut Rng, high: usize) -> Vec<u64> {
    let length = *rng.pick(&[0, 1, 2, 3, 4, 5, 6, 7, 8, 13, 14, 14, 15, 16]);
    let any = rng.chance(1, 8);
    (0..length).map(|_| if any { rng.number() } else { rng.below(high) as u64 }).collect()
}

fn compared(label: &str, one: &[u64], other: &[u64], answer: bool) -> Outcome {
    let subject = Subject { label, sheet: None, setup: None };
    let named = || format!("bag_at_most({one:?}, {other:?})");
    subject.same(named, portal::bag_at_most(one, other), answer)
}

/// Bag scores of random setups whose start values are few, so that bags meet and drop one another.
pub fn compare_bag_scores(rng: &mut Rng, rounds: usize) -> Result<Scores, Box<Difference>> {
    let mut scores = Scores::default();
    for number in 0..rounds {
        let draft = if rng.chance(1, 2) { several_ways(rng) } else { random_draft(rng, number) };
        let mut setup = draft.setup();
        let high = *rng.pick(&[3, 9, 30]);
        for start in setup.places.iter_mut().filter_map(|place| place.start.as_mut()) {
            *start = rng.below(high) as u64;
        }
        let label = format!("a bag score, {number}");
        compare_scores(&label, &setup, rng, &mut scores)?;
    }
    Ok(scores)
}

/// The bag score of each item, with just the room, and with either list one place too short.
fn compare_scores(label: &str, setup: &Setup, rng: &mut Rng, scores: &mut Scores) -> Outcome {
    let words = words_of(setup).expect("an accepted sheet's setup has words");
    let calls = Calls::new(setup);
    let subject = Subject { label, sheet: None, setup: Some(setup) };
    for target in 0..setup.count {
        let score = calls.bag_score(target);
        let many = score.as_ref().map_or(0, Vec::len);
        let (places, short) = (bags::MOST * many, many.saturating_sub(1));
        for (values, lengths) in [(places, many), (places.saturating_sub(1), many), (places, short)]
        {
            let lent = (lent_sets(rng, values), lent_sets(rng, lengths));
            compare_written(&subject, &words, target, &score, lent)?;
        }
        let sets = calls.opening_list(target).unwrap_or_default();
        let bag = |&set: &u64| bags::of(set, |item| setup.places[item].start.unwrap_or_default());
        scores.count(&sets.iter().map(bag).collect::<Vec<_>>(), &score.unwrap_or_default());
    }
    Ok(())
}

/// What the call answers and writes to two lent lists, beside what the brute force does with the
/// score.
pub fn compare_written(
    subject: &Subject<'_>,
    words: &[u64],
    target: u64,
    score: &Result<Vec<Vec<u64>>, u8>,
    lent: (Vec<u64>, Vec<u64>),
) -> Outcome {
    let named =
        || format!("bag_score({target}), with {} and {} places", lent.0.len(), lent.1.len());
    let (mut values, mut lengths) = lent.clone();
    let expected = score.clone().and_then(|bags| bags::write(&bags, &mut values, &mut lengths));
    let expected = (told(1, expected.map(|count| vec![count as u64])), values, lengths);
    let (mut values, mut lengths) = lent.clone();
    let proved = portal::bag_score(words, target, &mut values, &mut lengths).numbers();
    subject.same(named, (proved, values, lengths), expected)
}
