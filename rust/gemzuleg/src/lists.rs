//! The exercises' answers: `list`, `routes`, `harden`, `bags`.

use crate::lab::{or_never, Lab, Way};
use crate::steps;
use crate::stop::{answered, hold, Answer};
use crate::tables::Table;
use portal::{BAG_PLACES, MAX_LIST};

/// `list`: the report's rows of some targets; of one way where it is named.
pub fn list(lab: &Lab, targets: &[usize], way: Option<Way>) -> Answer<String> {
    let mut table = Table::new("target way size sum items");
    for &target in targets {
        let name = lab.name(target)?;
        for one in
            [Way::Open, Way::Lock].into_iter().filter(|one| way.is_none_or(|way| way == *one))
        {
            for set in summed(lab, target, one)? {
                let (size, sum) = (set.count_ones().to_string(), lab.sum(set, one).to_string());
                table.row(&[&name, one.name(), &size, &sum, &lab.names(set)?]);
            }
        }
    }
    Ok(table.text())
}

/// A target's list, its least sum held against the proved one.
pub fn summed(lab: &Lab, target: usize, way: Way) -> Answer<Vec<u64>> {
    let sets = lab.list(target, way)?;
    let least = sets.iter().map(|&set| lab.sum(set, way)).min();
    hold(least == lab.least(target, way)?, "the sums")?;
    Ok(sets)
}

/// The setup without recovery: a colour into an item is left out whole if any of its arrows is for
/// recovery.
pub fn without_recovery(lab: &Lab) -> Vec<u64> {
    let mut setup = lab.setup.clone();
    let marked = (769..1281).filter(|&word| lab.setup[word] != 0);
    for word in marked {
        setup[word] = 0;
        setup[word - 512] = 0;
    }
    setup
}

/// The recovery routes that weaken a target.
pub struct Routes {
    /// The score without recovery; nothing for "never".
    pub bound: Option<u64>,
    /// The sets below it.
    pub sets: Vec<u64>,
}

/// The routes of a target: none where recovery is no backdoor.
pub fn routes_of(lab: &Lab, without: &[u64], target: usize) -> Answer<Routes> {
    let score = portal::setup_score(without, target as u64).answered();
    let score = answered(score, "the score without recovery")?.score;
    let bound = Some(score).filter(|&sum| sum != portal::NEVER);
    let below = |set: &u64| bound.is_none_or(|bound| lab.sum(*set, Way::Open) < bound);
    let sets: Vec<u64> = lab.list(target, Way::Open)?.into_iter().filter(below).collect();
    let backdoor = answered(portal::backdoor(&lab.setup, target as u64).answered(), "findings")?;
    hold(sets.is_empty() == (backdoor.yes == 0), "the routes")?;
    Ok(Routes { bound, sets })
}

/// `routes`: for an account with a backdoor, the sets below the score without recovery, and the
/// recovery colours on their ways.
pub fn routes(lab: &Lab, account: Option<&String>) -> Answer<String> {
    let mut table = Table::new("target score without sum items recovery");
    let without = without_recovery(lab);
    for target in lab.targets(account)? {
        let Routes { bound, sets } = routes_of(lab, &without, target)?;
        let (name, own) = (lab.name(target)?, or_never(lab.least(target, Way::Open)?));
        for set in sets {
            let steps = steps::steps(lab, target, Way::Open, set)?;
            let recovery = steps::recovery_on(lab, &steps)?;
            hold(!recovery.is_empty(), "the routes")?;
            let sum = lab.sum(set, Way::Open).to_string();
            table.row(&[&name, &own, &or_never(bound), &sum, &lab.names(set)?, &recovery]);
        }
    }
    Ok(table.text())
}

/// The smallest cut sets of a target.
pub fn cuts(lab: &Lab, target: usize) -> Answer<Vec<u64>> {
    let mut sets = vec![0; MAX_LIST];
    let cuts = portal::cut_sets(&lab.setup, target as u64, &mut sets).answered();
    sets.truncate(answered(cuts, "the cut sets")?.count as usize);
    for &set in &sets {
        let others = lab.chosen(Way::Open) & !set;
        hold(!lab.opens(target, others)?, "the cut sets")?;
    }
    Ok(sets)
}

/// `harden`: the smallest cut sets.
pub fn harden(lab: &Lab, account: Option<&String>) -> Answer<String> {
    let mut table = Table::new("target size items");
    for target in lab.targets(account)? {
        for set in cuts(lab, target)? {
            table.row(&[&lab.name(target)?, &set.count_ones().to_string(), &lab.names(set)?]);
        }
    }
    Ok(table.text())
}

/// `bags`: scores that keep their parts, highest value first.
pub fn bags(lab: &Lab, account: Option<&String>) -> Answer<String> {
    let mut table = Table::new("target size values");
    for target in lab.targets(account)? {
        let (mut values, mut lengths) = (vec![0; BAG_PLACES * MAX_LIST], vec![0; MAX_LIST]);
        let bags =
            portal::bag_score(&lab.setup, target as u64, &mut values, &mut lengths).answered();
        let count = answered(bags, "the bags")?.bags as usize;
        for (bag, &size) in values.chunks(BAG_PLACES).zip(&lengths).take(count) {
            let bag: Vec<String> = bag.iter().take(size as usize).map(u64::to_string).collect();
            table.row(&[&lab.name(target)?, &size.to_string(), &bag.join("+")]);
        }
    }
    Ok(table.text())
}
