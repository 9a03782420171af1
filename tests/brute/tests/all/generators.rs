//! The generators: the same seed gives the same cases, all shapes and numbers are met, and
//! interesting answers occur.

use crate::accepted;
use brute::cases::damaged::damaged_sheets;
use brute::cases::noise::noise;
use brute::cases::probes::{item_numbers, lent_lengths, sets_outside};
use brute::cases::random::{large_sheets, random_sheets, SHAPES};
use brute::cases::tiny::{THREE_ITEMS, THREE_ITEMS_MARKED, TWO_ITEMS, TWO_ITEMS_MARKED};
use brute::cases::Rng;
use brute::setup::{take_in, within};
use brute::sheet::read;
use brute::{Calls, Least};
use std::collections::HashSet;

#[test]
fn the_same_seed_gives_the_same_cases() {
    let sheets = |seed| random_sheets(seed, 50).map(|case| case.sheet).collect::<Vec<_>>();
    assert_eq!(sheets(5), sheets(5));
    assert_ne!(sheets(5), sheets(6));
    // Splitmix64's own first numbers for seed 0.
    let mut rng = Rng::new(0);
    assert_eq!(rng.number(), 0xe220_a839_7b1d_cdaf);
    assert_eq!(rng.number(), 0x6e78_9e6a_a1b9_65f4);
}

#[test]
fn tiny_setups_differ_and_are_all_there() {
    assert_eq!((TWO_ITEMS.count(), THREE_ITEMS.count()), (4_096, 32_768));
    assert_eq!((TWO_ITEMS_MARKED.count(), THREE_ITEMS_MARKED.count()), (104_976, 1_259_712));
    for family in [TWO_ITEMS, THREE_ITEMS, TWO_ITEMS_MARKED] {
        // What is gone through one by one: edges in the order of their colours, and choices.
        let kinds: HashSet<_> =
            (0..family.count()).map(|index| shape_of(&family.setup(index))).collect();
        // Where one of two colours is empty, the index does not tell which one is meant.
        assert!(kinds.len() as u64 <= family.count());
        assert!(kinds.len() as u64 >= family.count() / 2, "{family:?}: {}", kinds.len());
    }
    let three: HashSet<_> =
        (0..THREE_ITEMS.count()).map(|index| shape_of(&THREE_ITEMS.setup(index))).collect();
    assert_eq!(three.len(), 32_768);
}

/// An item's rows with their recovery rows, whether it starts and whether it can be lost.
type Shape = (Vec<(u64, u64)>, bool, bool);

/// A tiny setup's edges without the names of its colours, and its choices.
fn shape_of(setup: &brute::Setup) -> Vec<Shape> {
    let colours: Vec<usize> =
        (0..8).filter(|&colour| setup.used().iter().any(|place| place.rows[colour] != 0)).collect();
    let place = |place: &brute::Place| {
        let rows = colours.iter().map(|&colour| (place.rows[colour], place.recovery[colour]));
        (rows.collect(), place.start.is_some(), place.loss.is_some())
    };
    setup.used().iter().map(place).collect()
}

#[test]
fn random_sheets_meet_what_matters() {
    let mut met = HashSet::new();
    for case in random_sheets(31, 2_400) {
        let calls = Calls::new(&accepted(&case.sheet).setup);
        let setup = calls.setup();
        assert!(setup.starting().len() <= 9 && setup.losable().len() <= 9, "{}", case.label);
        met.insert(format!("{} starting", setup.starting().len()));
        met.insert(format!("{} losable", setup.losable().len()));
        for item in 0..setup.count {
            met.insert(format!("backdoor {:?}", calls.backdoor(item)));
            met.insert(format!("idle {:?}", calls.idle(item)));
            met.insert(format!("score never {}", calls.score(item) == Ok(Least::Never)));
            met.insert(format!("score 0 {}", calls.score(item) == Ok(Least::Sum(0))));
            met.insert(format!("risk never {}", calls.risk(item) == Ok(Least::Never)));
            let openings = calls.opening_list(item).map_or(0, <[u64]>::len);
            met.insert(format!("{} openings", openings.min(40)));
        }
    }
    for number in 0..10 {
        assert!(met.contains(&format!("{number} starting")), "{number}");
        assert!(met.contains(&format!("{number} losable")), "{number}");
    }
    for number in [0, 1, 2, 3, 5, 10, 40] {
        assert!(met.contains(&format!("{number} openings")), "{number}");
    }
    for wanted in [
        "backdoor Ok(true)",
        "backdoor Ok(false)",
        "idle Ok(true)",
        "idle Ok(false)",
        "score never true",
        "score 0 true",
        "risk never true",
    ] {
        assert!(met.contains(wanted), "{wanted}");
    }
}

#[test]
fn large_sheets_are_at_the_bounds() {
    let mut met = HashSet::new();
    for case in large_sheets(32, 4 * SHAPES.len()) {
        let setup = accepted(&case.sheet).setup;
        met.insert(("items", setup.count as usize));
        met.insert(("edges", setup.edges()));
        let unreachable = case.label.contains("unreachable");
        assert!(setup.starting().len() == 14 || unreachable, "{}", case.label);
        assert_eq!(setup.losable().len(), 14, "{}", case.label);
    }
    for bound in [("items", 64), ("edges", 256)] {
        assert!(met.contains(&bound), "{bound:?}");
    }
}

#[test]
fn every_number_and_many_lines_are_met() {
    let refusal = |sheet: &[u8]| read(sheet).err().map(|refusal| refusal.number);
    let aimed: HashSet<_> = damaged_sheets(33, 220).map(|case| refusal(&case.sheet)).collect();
    assert!((1..=11).all(|number| aimed.contains(&Some(number))));
    let stray: HashSet<_> = noise(34, 20_000).map(|case| refusal(&case.sheet)).collect();
    let missed: Vec<u8> = (1..=11).filter(|&number| !stray.contains(&Some(number))).collect();
    // Noise meets no bound on counts, and all other questions.
    assert_eq!(missed, [7]);
    assert!(stray.contains(&None));
}

#[test]
fn probes() {
    assert_eq!(item_numbers(2)[..3], [0, 1, 2]);
    assert!(item_numbers(64).iter().filter(|&&item| item >= 64).count() >= 5);
    assert_eq!(lent_lengths(0, 0), [0, 1, 7]);
    let all = (0..6).fold(0, take_in);
    assert!(sets_outside(&mut Rng::new(1), 6).iter().all(|&set| !within(set, all)));
    assert!(sets_outside(&mut Rng::new(1), 64).is_empty());
}
