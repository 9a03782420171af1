//! All calls on a setup that is given as plain numbers.

use crate::bags::compare_written;
use crate::compare::{told, Difference, Subject};
use crate::living::compare_any;
use crate::register::{compare_afternoon, compare_register_calls};
use crate::walks::values;
use crate::words::{setup_said, words_of};
use brute::bags;
use brute::calls::{Calls, Way};
use brute::cases::registers::Met;
use brute::cases::{probes, Rng};
use brute::forecast;
use brute::graph;
use brute::kinds::{self, Intruder, KINDS};
use brute::lists::{Least, Marks};
use brute::report::PORTAL_NEVER;
use brute::setup::{holds, single, Setup, PLACES};
use portal::{HELD, WORDS};

/// How much is asked of a setup.
#[derive(Clone, Copy)]
pub struct Depth {
    /// Sets for closures, lost sets and quick answers.
    pub sets: usize,
    /// The most items that are targets, and how many numbers that are no items.
    pub items: usize,
    pub strangers: usize,
    /// For each target: ways in, lent lists, handed-in lists and pairs that may be out of rank.
    pub ways: usize,
    pub lent: usize,
    pub handed: usize,
    pub pairs: usize,
    /// The calls of an afternoon; a fifth of them are made by themselves, too.
    pub register: usize,
    /// Calls that change the setup, one of each sort first.
    pub edits: usize,
    /// All calls on each target; otherwise some of those that are alike are left out, at random.
    pub all: bool,
}

/// All there is, for some setups.
pub const FULL: Depth = Depth {
    sets: 12,
    items: PLACES,
    strangers: 9,
    ways: 3,
    lent: 4,
    handed: usize::MAX,
    pairs: 4,
    register: 30,
    edits: 8,
    all: true,
};
/// For many small setups.
pub const MANY: Depth = Depth {
    sets: 4,
    items: 5,
    strangers: 1,
    ways: 1,
    lent: 1,
    handed: 1,
    pairs: 1,
    register: 6,
    edits: 1,
    all: false,
};
/// For a million tiny ones.
pub const MOST: Depth = Depth { items: 2, ..MANY };
/// For setups at the bounds, where the brute force takes long, and for malformed ones, which every call
/// is to refuse.
pub const FEW: Depth = Depth {
    sets: 8,
    items: 5,
    strangers: 1,
    ways: 2,
    lent: 2,
    handed: 4,
    pairs: 2,
    register: 6,
    edits: 4,
    all: true,
};

type Outcome = Result<(), Box<Difference>>;

/// Compares all calls on a setup, and counts what the register's calls came to. Now and then its words
/// are others, so that they say no setup. A setup that words can't say is passed over: `false`.
pub fn compare_setup(
    label: &str,
    sheet: Option<&[u8]>,
    setup: &Setup,
    rng: &mut Rng,
    depth: Depth,
    met: &mut Met,
) -> Result<bool, Box<Difference>> {
    let Some(words) = words_of(setup) else { return Ok(false) };
    let words = in_other_words(rng, words);
    let setup = setup_said(&words);
    let subject = Subject { label, sheet, setup: Some(&setup) };
    compare_any(&subject, rng, &words, &setup, depth.edits)?;
    let calls = Calls::new(&setup);
    let mut compare = Compare { subject, words, calls: &calls, rng, depth };
    compare.all()?;
    compare.register(met)?;
    Ok(true)
}

/// Compares all calls that leave a setup as it is: their answers are to be those of the brute force on
/// the same setup with nothing held. The setup is well formed.
pub fn compare_unheeding(label: &str, setup: &Setup, rng: &mut Rng, depth: Depth) -> Outcome {
    let mut words = words_of(setup).expect("a well-formed setup can be said in words");
    if rng.chance(1, 8) {
        put_behind(rng, &mut words);
    }
    let subject = Subject { label, sheet: None, setup: Some(setup) };
    let calls = Calls::new(&setup.nothing_held());
    let mut compare = Compare { subject, words, calls: &calls, rng, depth };
    compare.all()?;
    compare.register(&mut Met::default())
}

/// The same words with anything behind them, which says the same; now and then too few of them, without
/// the zeros at their end or with any length, or one place's kind above 1: these say no setup.
fn in_other_words(rng: &mut Rng, mut words: Vec<u64>) -> Vec<u64> {
    match rng.below(24) {
        0 => {
            let last = words.iter().rposition(|&word| word != 0);
            words.truncate(last.map_or(0, |last| last + 1));
        }
        1 => {
            let any = rng.below(WORDS);
            words.truncate(*rng.pick(&[WORDS - 1, HELD, any]));
        }
        2 => {
            let any = rng.below(PLACES);
            let place = *rng.pick(&[0, PLACES - 1, any]);
            words[1 + 4 * place] = *rng.pick(&[2, 3, 1 << 32, 1 << 63, u64::MAX]);
        }
        3..=5 => put_behind(rng, &mut words),
        _ => {}
    }
    words
}

/// Puts any words behind those of a setup.
fn put_behind(rng: &mut Rng, words: &mut Vec<u64>) {
    let behind = 1 + rng.below(5);
    words.extend(probes::lent_sets(rng, behind));
}

struct Compare<'a> {
    subject: Subject<'a>,
    words: Vec<u64>,
    calls: &'a Calls,
    rng: &'a mut Rng,
    depth: Depth,
}

impl Compare<'_> {
    fn all(&mut self) -> Outcome {
        let calls = self.calls;
        let expected = if calls.well_formed() { 0 } else { 12 };
        let call = || "check".to_string();
        self.subject.same(call, portal::check(&self.words), expected)?;
        // A malformed setup's count may be any number.
        let count = calls.setup().count.min(PLACES as u64);
        let mut sets = probes::sets_within(self.rng, count, self.depth.sets);
        sets.extend(probes::sets_outside(self.rng, count));
        for &set in &sets {
            self.closure(set)?;
            let lost = portal::lost(&self.words, set);
            self.value("lost", set, lost.numbers(), calls.lost_set(set))?;
        }
        for target in self.targets(count) {
            self.target(target, &sets, count)?;
        }
        Ok(())
    }

    /// The class register: an afternoon, and single calls.
    fn register(&mut self, met: &mut Met) -> Outcome {
        if self.more() {
            let many = self.depth.register;
            let (subject, words, calls) = (&self.subject, &self.words, self.calls);
            compare_afternoon(subject, words, calls, self.rng, many, met)?;
            compare_register_calls(subject, words, calls, self.rng, many / 5, met)?;
        }
        Ok(())
    }

    /// What a set opens, and the number of passes.
    fn closure(&self, set: u64) -> Outcome {
        let proved = portal::closure(&self.words, set);
        let opened = self.calls.closure(set);
        let expected = opened.and_then(|opened| Ok(vec![opened, self.calls.passes(set)? as u64]));
        let named = || format!("closure({set:#x})");
        self.subject.same(named, proved.numbers(), told(2, expected))
    }

    /// Items of the setup, and numbers that are no items.
    fn targets(&mut self, count: u64) -> Vec<u64> {
        let mut strangers = probes::item_numbers(count);
        let mut items: Vec<u64> = strangers.drain(..count as usize).collect();
        self.rng.shuffle(&mut items);
        self.rng.shuffle(&mut strangers);
        items.truncate(self.depth.items);
        items.extend(strangers.iter().take(self.depth.strangers));
        items
    }

    /// Whether a call is made that is like another.
    fn more(&mut self) -> bool {
        self.depth.all || self.rng.chance(1, 3)
    }

    fn target(&mut self, target: u64, sets: &[u64], count: u64) -> Outcome {
        self.lists(target)?;
        self.cut_sets(target)?;
        self.bag_score(target)?;
        self.forecast(target)?;
        self.kinds(target)?;
        self.next_openings(target, sets)?;
        self.scores(target)?;
        for _ in 0..self.depth.pairs {
            let others = [self.rng.below(count.max(1) as usize) as u64, target, count, u64::MAX];
            let other = others[[0, 0, 0, 0, 0, 1, 2, 3][self.rng.below(8)]];
            self.pair(target, other)?;
            if self.depth.all {
                self.pair(other, target)?;
            }
        }
        for _ in 0..self.depth.ways {
            let set = *self.rng.pick(sets);
            self.way(target, set)?;
        }
        for &set in sets {
            self.opens(target, set)?;
        }
        self.all_marks(target)
    }

    /// The forecast: the brute force's number, no shorter than its opening list, each item of which
    /// is among those that it counted.
    fn forecast(&mut self, target: u64) -> Outcome {
        let calls = self.calls;
        let proved = portal::forecast(&self.words, target);
        self.value("forecast", target, proved.numbers(), calls.forecast(target))?;
        if let Ok(list) = calls.opening_list(target) {
            let counted = forecast::counted(calls.setup(), target as usize);
            let named = || format!("forecast({target}), against {} opening sets", list.len());
            let uncounted = list.iter().fold(0, |items, set| items | set) & !counted;
            let long = proved.sets < list.len() as u64;
            self.subject.same(named, (long, uncounted), (false, 0))?;
        }
        Ok(())
    }

    /// A list of kinds that is seldom of another length and has seldom an entry above 5, but for items
    /// that don't start.
    fn list_of_kinds(&mut self) -> Vec<u8> {
        let count = self.calls.setup().count.min(PLACES as u64) as usize;
        let length = if self.rng.chance(1, 8) { self.rng.below(PLACES + 2) } else { count };
        let most = *self.rng.pick(&[KINDS.into(), KINDS.into(), KINDS.into(), 8, 256]);
        let mut list: Vec<u8> = (0..length).map(|_| self.rng.below(most) as u8).collect();
        let starting = self.calls.setup().starting();
        for (item, kind) in list.iter_mut().enumerate() {
            if !starting.iter().any(|&(other, _)| other == item) && self.rng.chance(1, 3) {
                *kind = self.rng.number() as u8;
            }
        }
        list
    }

    /// The score by kinds of intruder; and of the six, those that are at or above it get in.
    fn kinds(&mut self, target: u64) -> Outcome {
        let list = self.list_of_kinds();
        let (calls, setup) = (self.calls, self.calls.setup());
        let proved = portal::kinds(&self.words, target, &list);
        let expected = calls.kinds(target, &list).map(|score| vec![score]);
        let named = || format!("kinds({target}, {list:?})");
        self.subject.same(named, proved.numbers(), told(1, expected))?;
        if proved.number != 0 {
            return Ok(());
        }
        for number in 0..KINDS {
            let intruder = Intruder::numbered(number);
            let starting = setup.starting().into_iter().map(|(item, _)| item);
            let held = starting.filter(|&item| Intruder::numbered(list[item]).at_most(intruder));
            let opened = graph::closure(setup, held.fold(0, |set, item| set | single(item)));
            let named = || format!("kinds({target}, {list:?}), an intruder of kind {number}");
            let gets_in = holds(opened, target as usize);
            self.subject.same(named, kinds::at_or_above(proved.kinds, intruder), gets_in)?;
        }
        Ok(())
    }

    /// The next set of the opening list: after every set of starting items where there are few of
    /// them, otherwise after some; after any sets; and from the empty set on to "no more".
    fn next_openings(&mut self, target: u64, sets: &[u64]) -> Outcome {
        let starting = self.calls.setup().starting();
        let all = starting.iter().fold(0, |set, &(item, _)| set | single(item));
        if starting.len() <= 3 {
            let subsets = (0..1u64 << starting.len()).map(|number| {
                let taken = starting.iter().enumerate().filter(|(bit, _)| number >> bit & 1 == 1);
                taken.fold(0, |set, (_, &(item, _))| set | single(item))
            });
            for last in subsets {
                self.next_opening(target, last)?;
            }
        }
        let lasts = [self.rng.number() & all, self.rng.number() & self.rng.number() & all];
        for last in [*self.rng.pick(&lasts), *self.rng.pick(sets)] {
            self.next_opening(target, last)?;
        }
        if self.more() {
            let mut last = Some(0);
            while let Some(set) = last {
                last = self.next_opening(target, set)?;
            }
        }
        Ok(())
    }

    /// What is shown after one set, as the proved code has it.
    fn next_opening(&self, target: u64, last: u64) -> Result<Option<u64>, Box<Difference>> {
        let proved = portal::next_opening(&self.words, target, last);
        let expected = self.calls.next_opening(target, last).map(values);
        let named = || format!("next_opening({target}, {last:#x})");
        self.subject.same(named, proved.numbers(), told(2, expected))?;
        Ok((proved.more == 1).then_some(proved.set))
    }

    fn scores(&mut self, target: u64) -> Outcome {
        let calls = self.calls;
        let coded = |least: Least| if let Least::Sum(sum) = least { sum } else { PORTAL_NEVER };
        if self.more() {
            let proved = portal::setup_score(&self.words, target).numbers();
            self.value("setup_score", target, proved, calls.score(target).map(coded))?;
        }
        if self.more() {
            let proved = portal::setup_risk(&self.words, target).numbers();
            self.value("setup_risk", target, proved, calls.risk(target).map(coded))?;
        }
        if self.more() {
            let proved = portal::backdoor(&self.words, target).numbers();
            self.value("backdoor", target, proved, calls.backdoor(target).map(u64::from))?;
        }
        if self.more() {
            let proved = portal::idle(&self.words, target).numbers();
            self.value("idle", target, proved, calls.idle(target).map(u64::from))?;
        }
        Ok(())
    }

    fn all_marks(&mut self, target: u64) -> Outcome {
        let calls = self.calls;
        if self.more() {
            let members = calls.setup().starting();
            let right = calls.opening_list(target).unwrap_or_default();
            let mark = |handed: &[u64]| calls.mark_openings(target, handed);
            self.marks("mark_openings", target, right, &members, mark, portal::mark_openings)?;
        }
        if self.more() {
            let members = calls.setup().losable();
            let right = calls.lockout_list(target).unwrap_or_default();
            let mark = |handed: &[u64]| calls.mark_lockouts(target, handed);
            self.marks("mark_lockouts", target, right, &members, mark, portal::mark_lockouts)?;
        }
        Ok(())
    }

    /// What a call on one number handed back, which has one value.
    fn value(
        &self,
        name: &str,
        number: u64,
        proved: Vec<u64>,
        expected: Result<u64, u8>,
    ) -> Outcome {
        let named = || format!("{name}({number:#x})");
        self.subject.same(named, proved, told(1, expected.map(|value| vec![value])))
    }

    fn pair(&mut self, above: u64, below: u64) -> Outcome {
        let expected = self.calls.out_of_rank(above, below).map(|is| vec![u64::from(is)]);
        let named = || format!("out_of_rank({above}, {below})");
        let proved = portal::out_of_rank(&self.words, above, below);
        self.subject.same(named, proved.numbers(), told(1, expected))
    }

    /// Both lists, to lent lists around the length that they need.
    fn lists(&mut self, target: u64) -> Outcome {
        let calls = self.calls;
        let first = calls.opening_list(target).map_or(0, <[u64]>::len);
        let second = calls.lockout_list(target).map_or(0, <[u64]>::len);
        let mut lengths = probes::lent_lengths(first, second);
        self.rng.shuffle(&mut lengths);
        lengths.truncate(self.depth.lent);
        // The sets themselves are seen only where there is room for them.
        if self.depth.all || self.rng.chance(3, 4) {
            lengths[0] = first + second + self.rng.below(2);
        }
        for length in lengths {
            let before = probes::lent_sets(self.rng, length);
            let (mut proved, mut brute) = (before.clone(), before);
            let expected = calls.lists(target, &mut brute);
            let expected = expected.map(|(n, m)| vec![n as u64, m as u64]);
            let numbers = portal::lists(&self.words, target, &mut proved).numbers();
            let named = || format!("lists({target}), with {length} places");
            self.subject.same(named, (numbers, proved), (told(2, expected), brute))?;
        }
        Ok(())
    }

    /// The smallest cut sets, to lent lists around the length that they need. Where they are the brute
    /// force's, they are held to its opening list too: each is what meets the other.
    fn cut_sets(&mut self, target: u64) -> Outcome {
        let calls = self.calls;
        let many = calls.cut_list(target).map_or(0, <[u64]>::len);
        // One place more shows whether those behind the list are left alone.
        let room = many + self.rng.below(2);
        let other = self.rng.below(many + 8);
        for length in [room, many.saturating_sub(1), other].into_iter().take(self.depth.lent + 1) {
            let before = probes::lent_sets(self.rng, length);
            let (mut proved, mut brute) = (before.clone(), before);
            let expected = calls.cut_sets(target, &mut brute).map(|count| vec![count as u64]);
            let numbers = portal::cut_sets(&self.words, target, &mut proved).numbers();
            let named = || format!("cut_sets({target}), with {length} places");
            self.subject.same(named, (numbers, proved), (told(1, expected), brute))?;
        }
        if let (Ok(cuts), Ok(list)) = (calls.cut_list(target), calls.opening_list(target)) {
            if self.more() && cuts.len().max(list.len()) < 64 {
                let table = calls.openings();
                let named = || format!("cut_sets({target}) and the opening list");
                let meeting = (table.meeting(list), table.meeting(cuts));
                self.subject.same(named, meeting, (cuts.to_vec(), list.to_vec()))?;
            }
        }
        Ok(())
    }

    /// The bag score, to two lent lists around the lengths that they need.
    fn bag_score(&mut self, target: u64) -> Outcome {
        let score = self.calls.bag_score(target);
        let many = score.as_ref().map_or(0, Vec::len);
        let (values, short) = (bags::MOST * many, many.saturating_sub(1));
        let pairs = [
            (values, many),
            (values.saturating_sub(1), many),
            (values + 13, short),
            (bags::MOST * short, many),
            (self.rng.below(values + 30), self.rng.below(many + 3)),
        ];
        let exact = (values + self.rng.below(2), many + self.rng.below(2));
        for (values, lengths) in [exact, *self.rng.pick(&pairs)] {
            let lent = (probes::lent_sets(self.rng, values), probes::lent_sets(self.rng, lengths));
            compare_written(&self.subject, &self.words, target, &score, lent)?;
        }
        Ok(())
    }

    /// The way in, to two lent lists around the lengths that they need.
    fn way(&mut self, target: u64, set: u64) -> Outcome {
        let calls = self.calls;
        let steps = match calls.way_in(set, target, &mut [0; PLACES], &mut [0; PLACES]) {
            Ok(Way::Steps(steps)) => steps,
            _ => 2,
        };
        let short = steps.saturating_sub(1);
        let pairs =
            [(steps, steps), (short, steps), (steps, short), (0, 0), (steps + 3, steps + 1)];
        for (items, colours) in [(steps + 1, steps + 2), *self.rng.pick(&pairs)] {
            let items = probes::lent_bytes(self.rng, items);
            let colours = probes::lent_bytes(self.rng, colours);
            let (mut items_brute, mut colours_brute) = (items.clone(), colours.clone());
            let expected = calls.way_in(set, target, &mut items_brute, &mut colours_brute);
            let expected = expected.map(|way| match way {
                Way::Steps(steps) => vec![1, steps as u64],
                Way::Shut => vec![0],
            });
            let (mut items_proved, mut colours_proved) = (items.clone(), colours.clone());
            let way =
                portal::way_in(&self.words, target, set, &mut items_proved, &mut colours_proved);
            let lengths = (items.len(), colours.len());
            let named = || format!("way_in({target}, {set:#x}), places {lengths:?}");
            let proved = (way.numbers(), items_proved, colours_proved);
            let brute = (told(2, expected), items_brute, colours_brute);
            self.subject.same(named, proved, brute)?;
        }
        Ok(())
    }

    /// The quick yes, and the set that is held at the stop.
    fn opens(&self, target: u64, set: u64) -> Outcome {
        let expected = self.calls.opens(set, target);
        let expected = expected.map(|(yes, held)| vec![u64::from(yes), held]);
        let proved = portal::opens(&self.words, target, set);
        let named = || format!("opens({target}, {set:#x})");
        self.subject.same(named, proved.numbers(), told(2, expected))
    }

    /// Marks of some handed-in lists.
    fn marks(
        &mut self,
        name: &str,
        target: u64,
        right: &[u64],
        members: &[(usize, u64)],
        brute: impl Fn(&[u64]) -> Result<Marks, u8>,
        proved: fn(&[u64], u64, &[u64]) -> portal::MarksResult,
    ) -> Outcome {
        let allowed = members.iter().fold(0, |set, &(item, _)| set | 1 << item);
        let count = self.calls.setup().count.min(PLACES as u64);
        let mut handed = probes::hand_ins(self.rng, right, allowed, count);
        if self.depth.handed < handed.len() {
            self.rng.shuffle(&mut handed);
            handed.truncate(self.depth.handed);
        }
        for list in &handed {
            let marks = brute(&list.sets);
            let expected = marks.map(|marks| {
                let Marks { repeated, shut, loose, right, missing } = marks;
                [right, repeated, shut, loose, missing].map(|count| count as u64).to_vec()
            });
            let named = || format!("{name}({target}), {}: {:x?}", list.label, list.sets);
            let marks = proved(&self.words, target, &list.sets);
            self.subject.same(named, marks.numbers(), told(5, expected))?;
        }
        Ok(())
    }
}
