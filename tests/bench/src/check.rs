//! Before anything is timed: the twin, the brute force and the program answer as the proved calls.

use crate::kinds::{tables, Kind, ROOM};
use crate::twin::{self, NEVER};
use crate::{plain, proved};

/// Holds the twin's and the brute force's answers for some targets against the proved calls, with
/// and without recovery.
pub fn same_answers(kind: &Kind) {
    let less = Kind::of_words(&kind.name, kind.words_without_recovery());
    for part in [kind, &less] {
        let graph = &part.setup.graph;
        let scores = twin::scores(&part.setup, graph, &mut tables());
        let closed = [false, true].map(|loss| plain::closures(&part.setup, graph, loss));
        for target in some_targets(part) {
            let lists = same_lists(part, target);
            for loss in [false, true] {
                let way = usize::from(loss);
                let list = plain::list(&closed[way], target);
                assert_eq!(list, lists[way], "{}: the brute force lists otherwise", part.name);
                let score = proved::score(&part.words, target, loss);
                assert_eq!(scores[way][target], score, "{}: the twin scores otherwise", part.name);
                let least = plain::score(&part.setup, loss, &list).unwrap_or(NEVER);
                assert_eq!(least, score, "{}: the brute force scores otherwise", part.name);
            }
        }
    }
}

/// The one with the longest lists, and some others.
pub fn some_targets(kind: &Kind) -> [usize; 3] {
    let count = kind.setup.count;
    [kind.target, (kind.target + count / 3) % count, (kind.target + 2 * count / 3) % count]
}

/// Both lists of a target, by the proved call and by the twin.
fn same_lists(kind: &Kind, target: usize) -> [Vec<u64>; 2] {
    let mut proved = vec![0; ROOM];
    let mut same = vec![0; ROOM];
    let counts = proved::both_bases(&kind.words, target, &mut proved);
    for twin in [twin::both_bases::<false>, twin::both_bases::<true>] {
        let others = twin(&kind.setup, target, &mut same);
        assert_eq!(counts, others, "{}: the twin has lists of other lengths", kind.name);
        assert_eq!(proved, same, "{}: the twin lists otherwise", kind.name);
    }
    let lockout = proved[counts.0..counts.0 + counts.1].to_vec();
    proved.truncate(counts.0);
    [proved, lockout]
}
