//! The proved calls on the benchmark's own setups and sheets, none of which is refused.

/// Both lists to one lent list, and their lengths.
pub fn both_bases(words: &[u64], target: usize, out: &mut [u64]) -> (usize, usize) {
    let lists = portal::lists(words, target as u64, out);
    answered(lists.number);
    (lists.openings as usize, lists.lockouts as usize)
}

/// The smallest cut sets to a lent list, and their number.
pub fn cut_sets(words: &[u64], target: usize, out: &mut [u64]) -> usize {
    let cuts = portal::cut_sets(words, target as u64, out);
    answered(cuts.number);
    cuts.count as usize
}

/// The bag score to two lent lists, and the number of bags.
pub fn bag_score(words: &[u64], target: usize, lent: (&mut [u64], &mut [u64])) -> usize {
    let score = portal::bag_score(words, target as u64, lent.0, lent.1);
    answered(score.number);
    score.bags as usize
}

/// A vertex's score or, with loss, its risk.
pub fn score(words: &[u64], target: usize, loss: bool) -> u64 {
    let (number, value) = if loss {
        let risk = portal::setup_risk(words, target as u64);
        (risk.number, risk.risk)
    } else {
        let score = portal::setup_score(words, target as u64);
        (score.number, score.score)
    };
    answered(number);
    value
}

/// Marks of opening sets: right, repeated, shut, loose, missing.
pub fn mark_access(words: &[u64], target: usize, handed: &[u64]) -> [u64; 5] {
    let m = portal::mark_openings(words, target as u64, handed);
    answered(m.number);
    [m.right, m.repeated, m.shut, m.loose, m.missing]
}

fn answered(number: u64) {
    assert_eq!(number, 0, "a call refused a setup of the benchmark");
}
