//! Bags of values, held to answers that were worked out by hand.

use crate::calls;
use brute::bags::{arranged, at_most, MOST};
use brute::cases::bags::{bags, COMPARED};
use brute::cases::Rng;

#[test]
fn known_bags_compare() {
    for &(one, other, answer) in COMPARED {
        assert_eq!(at_most(one, other), answer, "{one:?}, {other:?}");
    }
}

#[test]
fn known_scores() {
    for case in bags() {
        let calls = calls(&case.case.sheet);
        assert_eq!(calls.bag_score(case.target), Ok(case.bags), "{}", case.case.label);
    }
}

/// Sorted, each value with the one at its place, gives the same answers at all lengths.
#[test]
fn sorted_lists_agree() {
    let mut rng = Rng::new(6);
    for _ in 0..3_000 {
        let high = *rng.pick(&[2, 3, 6, 20]);
        let (short, long) = (rng.below(MOST + 1), rng.below(MOST + 1));
        let one: Vec<u64> = (0..short).map(|_| rng.below(high) as u64).collect();
        let other: Vec<u64> = (0..long).map(|_| rng.below(high) as u64).collect();
        assert_eq!(at_most(&one, &other), in_order(&one, &other), "{one:?}, {other:?}");
    }
}

fn in_order(one: &[u64], other: &[u64]) -> bool {
    let (one, other) = (arranged(one.to_vec()), arranged(other.to_vec()));
    one.len() <= other.len() && one.iter().zip(&other).all(|(value, partner)| value <= partner)
}
