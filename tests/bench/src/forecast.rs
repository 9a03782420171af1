//! The forecast for an opening list against both lists of the same target, and against its twin.

use crate::formed::{Whole, START};
use crate::grid::{micros, ratio, with_commas, Grid};
use crate::kinds::{Kind, CHOSEN, ROOM};
use crate::targets::{largest, smallest, Target};
use crate::timing::in_turn;
use crate::twin::{members, Graph, VERTICES};
use crate::{proved, Rounds};
use brute::cases::draft::Draft;
use std::hint::black_box;

/// The numbers of ways to choose half of n things, for n up to 14.
const WAYS: [u64; 15] = [1, 1, 2, 3, 6, 10, 20, 35, 70, 126, 252, 462, 924, 1716, 3432];

/// The vertices that are the target or reach it; each that is found is looked at once.
fn reaching(graph: &Graph, target: usize) -> u64 {
    let (mut found, mut seen) = (1u64 << target, 0u64);
    while seen != found {
        let v = (found & !seen).trailing_zeros() as usize;
        found |= graph[v].iter().fold(0, |all, row| all | row);
        seen |= 1 << v;
    }
    found
}

/// The twin of the proved call.
fn twin_forecast(words: &[u64], target: usize) -> Result<u64, u64> {
    let setup = Whole::asked(words).ok_or(12u64)?;
    if target >= setup.count {
        return Err(13);
    }
    let counted = setup.chosen(START) & reaching(&setup.graph, target);
    Ok(WAYS[counted.count_ones() as usize])
}

fn proved_forecast(words: &[u64], target: usize) -> u64 {
    let forecast = portal::forecast(words, target as u64);
    assert_eq!(forecast.number, 0, "a forecast was refused");
    forecast.sets
}

/// 64 vertices, 14 of them initial, and no edge.
fn without_edges() -> Kind {
    let mut draft = Draft::of_items(VERTICES);
    draft.all_accounts();
    let first: Vec<usize> = (0..CHOSEN).collect();
    draft.set_starting(&first, || 1);
    draft.set_losable(&first, || 1);
    Kind::new("without edges", draft.text())
}

/// The times of a forecast, by the proved call and by the twin in turn. Lists are timed apart: they
/// leave nothing of the setup in the processor's caches.
fn forecast_times(kind: &Kind, rounds: usize) -> [f64; 2] {
    in_turn(
        rounds,
        [
            &mut || {
                black_box(proved_forecast(black_box(&kind.words), kind.target));
            },
            &mut || {
                black_box(twin_forecast(black_box(&kind.words), kind.target)).ok();
            },
        ],
    )
}

/// The time of both lists by the proved call.
fn lists_time(kind: &Kind, rounds: usize) -> f64 {
    let mut lists = [0; ROOM];
    let mut call = || {
        black_box(proved::both_bases(black_box(&kind.words), kind.target, &mut lists));
    };
    let [time] = in_turn(rounds, [&mut call]);
    time
}

/// The forecast on each kind of sheet, and on one without edges.
pub fn forecasts(kinds: &[Kind], rounds: &Rounds, targets: &mut Vec<Target>) -> Grid {
    let mut grid = Grid::new(
        "The forecast for an opening list",
        &[
            "sheet",
            "counted",
            "forecast",
            "opening sets",
            "proved, µs",
            "twin, µs",
            "proved / twin",
            "both lists, µs",
            "lists / forecast",
        ],
    );
    grid.note(
        "`portal_forecast` for the target with the longest lists. Proved and twin take the setup from the \
         same words and ask question 12, which is most of the time, and are called in turn; both lists are \
         those of the proved call, timed apart.",
    );
    let (mut twins, mut lists, mut own) = (Vec::new(), Vec::new(), Vec::new());
    let bare = without_edges();
    for kind in kinds.iter().chain([&bare]) {
        same_answers(kind);
        let counted =
            (kind.setup.chosen(false) & reaching(&kind.setup.graph, kind.target)).count_ones();
        let (opening, _) = proved::both_bases(&kind.words, kind.target, &mut [0; ROOM]);
        let [forecast, twin] = forecast_times(kind, rounds.calls);
        let both = lists_time(kind, rounds.calls);
        grid.row(vec![
            kind.name.clone(),
            counted.to_string(),
            with_commas(proved_forecast(&kind.words, kind.target)),
            with_commas(opening as u64),
            micros(forecast),
            micros(twin),
            ratio(forecast, twin),
            micros(both),
            ratio(both, forecast),
        ]);
        twins.push((kind.name.clone(), forecast / twin));
        own.push((kind.name.clone(), forecast));
        if kind.name != bare.name {
            lists.push((kind.name.clone(), both / forecast));
        }
    }
    let (name, most) = largest(&twins);
    let seen = format!("at most {most:.2} ({name})");
    targets.push(Target::measured(
        "the forecast, proved / twin",
        "at most 1.3 times",
        seen,
        most <= 1.3,
    ));
    let (name, least) = smallest(&lists);
    let seen = format!("at least {least:.2} ({name})");
    let what = "both lists / the forecast of the same target";
    targets.push(Target::measured(what, "at least 15 times, on every kind", seen, least >= 15.0));
    let of = |name: &str| {
        own.iter().find(|(other, _)| other == name).map_or(f64::NAN, |(_, time)| *time)
    };
    let times = of("antichain of 3,432") / of(&bare.name);
    let met = (1.0 / 3.0..=3.0).contains(&times);
    let what = "the forecast, 3,432 sets / no edges";
    targets.push(Target::measured(what, "within a factor of 3", format!("{times:.2} times"), met));
    grid
}

/// The twin forecasts as the proved call for every vertex, and no list is longer.
fn same_answers(kind: &Kind) {
    for target in members(u64::MAX >> (VERTICES - kind.setup.count)) {
        let proved = proved_forecast(&kind.words, target);
        assert_eq!(Ok(proved), twin_forecast(&kind.words, target), "{}: {target}", kind.name);
    }
    let (opening, _) = proved::both_bases(&kind.words, kind.target, &mut [0; ROOM]);
    let forecast = proved_forecast(&kind.words, kind.target);
    assert!(opening as u64 <= forecast, "{}: {opening} sets, forecast {forecast}", kind.name);
}
