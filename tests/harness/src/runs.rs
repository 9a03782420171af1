//! What is compared: the gate's fixed part, and rounds of a seed for as long as one likes.

use crate::bags::{compare_bag_scores, compare_bags, compare_known_bags};
use crate::compare::Difference;
use crate::handins::{compare_handin_bounds, compare_handins, ENDS};
use crate::intruders::compare_known_kinds;
use crate::living::{
    compare_every_step, compare_lives, compare_living_cases, compare_short_lists, DRAWINGS,
};
use crate::long_lists::compare_long_lists;
use crate::passes::compare_known_passes;
use crate::pools::{compare_pool_cases, compare_pools};
use crate::program::Program;
use crate::saves::{compare_longest, compare_saved_lives};
use crate::setups::{compare_setup, Depth, FEW, FULL, MANY, MOST};
use crate::sheets::{compare_by_hand, compare_report, compare_sheet};
use crate::walks::{compare_next_cases, compare_walks};
use brute::cases::by_hand::by_hand;
use brute::cases::draft::sheet_of_setup;
use brute::cases::handins::Ends;
use brute::cases::living::LISTS;
use brute::cases::registers::Met;
use brute::cases::{
    bags, bounds, buffers, cuts, damaged, forecasts, intruders, noise, random, readings, setups,
    tiny, Rng, SetupCase, SheetCase,
};
use std::fmt;
use std::thread;
use std::time::{Duration, Instant};

type Outcome = Result<(), Box<Difference>>;

/// The fewest sets that the gate's walks show, the fewest calls in them whose last set had left the
/// list, and the fewest changes between two calls.
const SHOWN: usize = 800;
const LEFT: usize = 80;
const CHANGED: usize = 3_000;

/// Of the 6,561 graphs of two items and two colours, how many there are from one to the next whose lists
/// of up to 3 calls the gate makes one by one: a number that shares no factor with 3.
const APART: usize = 800;

/// How many hand-in lines the gate reads and enters.
const LINES: usize = 20_000;

/// The fewest of the gate's calls on the class register, by what they came to.
const REGISTERED: [(&str, usize); 11] = [
    ("new", 10_000),
    ("replaced", 1_500),
    ("the first of several replaced", 250),
    ("withdrawn", 2_000),
    ("gaps closed", 200),
    ("12", 100),
    ("13", 4_000),
    ("25", 1_000),
    ("25 before 12", 3),
    ("26", 4_000),
    ("27", 5_000),
];
/// The fewest random pairs in the gate that give a pooled sheet, and the fewest 22 and 23.
const POOLED: usize = 400;
const NOT_POOLED: usize = 20;

/// How many inputs were compared, and how many reports among them.
#[derive(Default)]
pub struct Counts {
    pub tiny: u64,
    pub random: u64,
    pub bounds: u64,
    pub damaged: u64,
    pub texts: u64,
    pub setups: u64,
    /// Lists of calls that change a setup, and such calls on all graphs of two items.
    pub lives: u64,
    pub steps: u64,
    /// Hand-in lines.
    pub lines: u64,
    pub reports: u64,
}

impl fmt::Display for Counts {
    fn fmt(&self, out: &mut fmt::Formatter<'_>) -> fmt::Result {
        let Counts { tiny, random, bounds, damaged, texts, setups, lives, steps, lines, reports } =
            self;
        write!(out, "{tiny} tiny sheets, {random} random ones, {bounds} at the bounds, ")?;
        write!(out, "{damaged} damaged, {texts} other texts, {setups} setups as plain numbers, ")?;
        write!(out, "{lives} lists of calls that change one, {steps} such calls on tiny ones, ")?;
        write!(out, "{lines} hand-in lines; ")?;
        write!(out, "{reports} whole reports")
    }
}

/// A run of comparisons.
pub struct Run {
    pub counts: Counts,
    met: Met,
    rng: Rng,
    program: Option<Program>,
}

impl Run {
    pub fn new(seed: u64, program: Option<Program>) -> Run {
        Run { counts: Counts::default(), met: Met::default(), rng: Rng::new(seed), program }
    }

    fn sheet(&mut self, case: &SheetCase, depth: Depth, report: bool) -> Outcome {
        let program = self.program.as_ref().filter(|_| report);
        self.counts.reports += u64::from(program.is_some());
        compare_sheet(case, &mut self.rng, depth, program, &mut self.met)
    }

    /// The report of a sheet, and nothing else.
    fn report(&mut self, case: &SheetCase) -> Outcome {
        let Some(program) = &self.program else { return Ok(()) };
        self.counts.reports += 1;
        compare_report(case, program)
    }

    fn tiny(&mut self, case: SetupCase, depth: Depth) -> Outcome {
        self.counts.tiny += 1;
        let sheet = sheet_of_setup(&case.setup);
        self.sheet(&SheetCase::accepted(case.label, sheet), depth, false)
    }

    fn setup(&mut self, case: &SetupCase, depth: Depth) -> Outcome {
        let (rng, met) = (&mut self.rng, &mut self.met);
        let said = compare_setup(&case.label, None, &case.setup, rng, depth, met)?;
        self.counts.setups += u64::from(said);
        Ok(())
    }

    /// The gate's part: the same inputs in every run with one seed. The tiny sheets take longer than
    /// all others, which are compared beside them.
    pub fn gate(&mut self, seed: u64) -> Outcome {
        let mut tiny = Run::new(seed, None);
        let outcomes = thread::scope(|scope| {
            let beside = scope.spawn(|| tiny.tiny_sheets());
            [self.other_inputs(seed), beside.join().expect("a thread ends")]
        });
        self.counts.tiny += tiny.counts.tiny;
        self.met.add(&tiny.met);
        for outcome in outcomes {
            outcome?;
        }
        let too_few = self.met.too_few(&REGISTERED);
        assert!(too_few.is_empty(), "too few of {too_few:?} were registered: {:?}", self.met);
        Ok(())
    }

    fn tiny_sheets(&mut self) -> Outcome {
        for case in tiny::all_unmarked().chain(tiny::all_marked(401)) {
            self.tiny(case, MANY)?;
        }
        Ok(())
    }

    fn other_inputs(&mut self, seed: u64) -> Outcome {
        compare_long_lists(seed)?;
        compare_known_passes()?;
        compare_known_kinds()?;
        assert!(compare_by_hand()? >= 150, "sheets worked out by hand are gone");
        for case in by_hand() {
            self.counts.texts += 1;
            self.sheet(&case.case, FEW, true)?;
        }
        compare_next_cases()?;
        compare_known_bags()?;
        let pairs = compare_bags(&mut self.rng, 20_000)?;
        assert!(pairs.enough(), "too few pairs of bags: {pairs:?}");
        let scores = compare_bag_scores(&mut self.rng, 600)?;
        assert!(scores.enough(), "too few bag scores: {scores:?}");
        let walked = compare_walks(&mut self.rng, 600)?;
        assert!(walked.shown >= SHOWN && walked.left >= LEFT, "too little was walked: {walked:?}");
        assert!(walked.changed >= CHANGED, "too little was changed: {walked:?}");
        self.lives()?;
        compare_pool_cases(&mut self.rng)?;
        let pools = compare_pools(&mut self.rng, 1_000)?;
        let others = pools.disagree.min(pools.beyond);
        assert!(pools.pooled >= POOLED && others >= NOT_POOLED, "too little was pooled: {pools:?}");
        compare_longest(&mut self.rng)?;
        let saves = compare_saved_lives(&mut self.rng, 600)?;
        assert!(saves.enough(), "too little was saved: {saves:?}");
        self.handins()?;
        for case in bounds::bounds() {
            self.counts.bounds += 1;
            self.sheet(&case, FEW, true)?;
        }
        for case in bounds::largest_sums() {
            self.counts.bounds += 1;
            self.sheet(&case, FULL, true)?;
        }
        for case in buffers::full_buffers() {
            self.report(&case)?;
        }
        for case in readings::readings() {
            self.counts.texts += 1;
            self.sheet(&case, FULL, true)?;
        }
        let forecasts = forecasts::forecasts().into_iter().map(|case| case.case);
        let cuts = cuts::cuts().into_iter().map(|case| case.case);
        let bags = bags::bags().into_iter().map(|case| case.case);
        for case in forecasts.chain(cuts).chain(bags).chain(intruders::sheets()) {
            self.counts.texts += 1;
            self.sheet(&case, FULL, false)?;
        }
        for (number, case) in random::random_sheets(seed, 2_500).enumerate() {
            self.counts.random += 1;
            let depth = if number % 20 == 0 { FULL } else { MANY };
            self.sheet(&case, depth, number % 4 == 0)?;
        }
        for case in random::large_sheets(seed, 12) {
            self.counts.bounds += 1;
            self.sheet(&case, FEW, true)?;
        }
        for case in damaged::damaged_sheets(seed, 3_000) {
            self.counts.damaged += 1;
            self.sheet(&case, MANY, self.counts.damaged % 8 == 0)?;
        }
        for case in noise::noise(seed, 3_000) {
            self.counts.texts += 1;
            self.sheet(&case, MANY, self.counts.texts % 8 == 0)?;
        }
        // Every call is to refuse them, so that no tables are made.
        for case in setups::malformed_setups(seed, 3) {
            self.setup(&case, FEW)?;
        }
        let mut given = setups::near_misses(seed, 3);
        given.extend(setups::shaken_setups(seed, 300));
        for case in &given {
            self.setup(case, MANY)?;
        }
        Ok(())
    }

    /// Hand-ins by name: lines at the bounds and at random; each number must come from each field.
    pub fn handins(&mut self) -> Outcome {
        let (mut rng, mut ends) = (self.rng.clone(), Ends::default());
        compare_handin_bounds(&mut rng, &mut ends)?;
        compare_handins(&mut rng, LINES, &mut ends)?;
        self.counts.lines += LINES as u64;
        let too_few = ends.too_few(&ENDS);
        assert!(too_few.is_empty(), "too few lines: {too_few:?} of {ends:?}");
        Ok(())
    }

    /// Setups that live: answers worked out by hand, random lists, and all lists on graphs of two items.
    fn lives(&mut self) -> Outcome {
        compare_living_cases()?;
        let met = compare_lives(&mut self.rng, LISTS)?;
        assert!(met.too_few().is_empty(), "too few: {:?} of {met:?}", met.too_few());
        let lengths = met.too_few_of_other_lengths();
        assert!(lengths.is_empty(), "too few: {lengths:?} of {met:?}");
        self.counts.lives += LISTS as u64;
        self.counts.steps += compare_every_step()? as u64;
        for drawing in (0..DRAWINGS).step_by(APART) {
            self.counts.lives += compare_short_lists(drawing)? as u64;
        }
        Ok(())
    }

    /// All lists of up to 3 calls on every graph of two items and two colours, made one by one on every
    /// processor: it takes minutes, so that the gate makes those of a few graphs.
    pub fn lists(&mut self) -> Outcome {
        let many = thread::available_parallelism().map_or(1, usize::from);
        let part = |first| {
            let mut graphs = (first as u64..DRAWINGS).step_by(many);
            graphs.try_fold(0, |lists, drawing| Ok(lists + compare_short_lists(drawing)?))
        };
        let parts: Vec<Result<usize, Box<Difference>>> = thread::scope(|scope| {
            let threads: Vec<_> = (0..many).map(|first| scope.spawn(move || part(first))).collect();
            threads.into_iter().map(|one| one.join().expect("a thread ends")).collect()
        });
        for lists in parts {
            self.counts.lives += lists? as u64;
        }
        Ok(())
    }

    /// Rounds of fresh inputs until the time is over.
    pub fn fuzz(&mut self, time: Duration) -> Outcome {
        let start = Instant::now();
        while start.elapsed() < time {
            self.round()?;
        }
        Ok(())
    }

    fn round(&mut self) -> Outcome {
        compare_bags(&mut self.rng, 2_000)?;
        compare_bag_scores(&mut self.rng, 20)?;
        for _ in 0..400 {
            let family = *self.rng.pick(tiny::FAMILIES);
            let case = family.case(self.rng.number() % family.count());
            self.tiny(case, MOST)?;
        }
        for case in random::random_sheets(self.rng.number(), 2 * random::SHAPES.len()) {
            self.counts.random += 1;
            self.sheet(&case, MANY, self.counts.random % 8 == 0)?;
        }
        if self.rng.chance(1, 20) {
            for case in random::large_sheets(self.rng.number(), 1) {
                self.counts.bounds += 1;
                self.sheet(&case, FEW, true)?;
            }
        }
        compare_walks(&mut self.rng, 6)?;
        compare_lives(&mut self.rng, 10)?;
        self.counts.lives += 10;
        if self.rng.chance(1, 20) {
            self.counts.lives += compare_short_lists(self.rng.number() % DRAWINGS)? as u64;
        }
        compare_pools(&mut self.rng, 40)?;
        compare_saved_lives(&mut self.rng, 20)?;
        compare_handins(&mut self.rng, 200, &mut Ends::default())?;
        self.counts.lines += 200;
        for case in damaged::damaged_sheets(self.rng.number(), 11) {
            self.counts.damaged += 1;
            self.sheet(&case, MANY, false)?;
        }
        for case in noise::noise(self.rng.number(), 10) {
            self.counts.texts += 1;
            self.sheet(&case, MANY, false)?;
        }
        let shaken: Vec<SetupCase> = setups::shaken_setups(self.rng.number(), 6).collect();
        for case in &shaken {
            self.setup(case, MANY)?;
        }
        Ok(())
    }
}
