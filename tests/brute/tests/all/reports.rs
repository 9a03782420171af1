//! Reports of small sheets, written out, and findings at their edges.

use crate::calls;
use brute::cases::bounds::{bounds, longest_reports};
use brute::cases::buffers::{full_buffers, BUFFER, LONGEST, ROOM};
use brute::cases::random::{large_sheets, random_sheets};
use brute::report::report;
use brute::setup::COLOURS;
use brute::{Calls, Setup};

fn printed(sheet: &str) -> String {
    String::from_utf8_lossy(&report(sheet.as_bytes())).into_owned()
}

#[test]
fn no_account() {
    let sheet = "name kind start loss rank\np c 1 1 0\n\nfrom to colour rec\n";
    let text = "target way size sum items\n\ntarget score risk back idle\n\nabove below\n";
    assert_eq!(printed(sheet), text);
}

#[test]
fn no_pair() {
    let sheet = "name kind start loss rank\np c 2 0 9\nq a - - 0\nr a 7 - 0\n\n\
                 from to colour rec\np q 5 0\n";
    let text = "target way size sum items\nq open 1 2 p\nq lock 1 0 p\nr open 1 7 r\n\n\
                target score risk back idle\nq 2 0 no yes\nr 7 - no yes\n\nabove below\n";
    assert_eq!(printed(sheet), text);
}

/// Two unreachable accounts of different rank are a pair; never against never is idle and no
/// backdoor.
#[test]
fn unreachable_accounts() {
    let sheet = "name kind start loss rank\nx a - - 1\ny a - - 2\nz a 0 - 3\n\n\
                 from to colour rec\nx x 0 1\n";
    let text = "target way size sum items\nz open 1 0 z\n\n\
                target score risk back idle\nx - - no yes\ny - - no yes\nz 0 - no yes\n\n\
                above below\ny x\nz x\nz y\n";
    assert_eq!(printed(sheet), text);
}

#[test]
fn refused_sheets() {
    assert_eq!(printed(""), "refused 2 0\n");
    assert_eq!(printed("name kind start loss rank\n"), "refused 11 2\n");
    assert_eq!(String::from_utf8_lossy(&report(&[b'x'; 20_000])), "refused 1 0\n");
}

/// An account that opens by recovery alone has a backdoor; one that can be lost only without
/// its recovery is not idle.
#[test]
fn recovery_against_never() {
    let sheet = "name kind start loss rank\np c 1 - 0\nq c - 5 0\nr a - - 0\n\n\
                 from to colour rec\np r 0 1\nq r 1 0\n";
    let calls = calls(sheet);
    assert_eq!((calls.backdoor(2), calls.idle(2)), (Ok(true), Ok(false)));
    // Credentials and items without edges are asked as any other.
    assert_eq!((calls.backdoor(0), calls.idle(0)), (Ok(false), Ok(true)));
    assert_eq!(calls.idle(1), Ok(true));
}

/// One of two edges of the only colour is marked: the whole colour goes, so that without recovery
/// nothing opens the account and nothing locks it.
#[test]
fn mixed_recovery_colour() {
    let sheet = "name kind start loss rank\np c 1 1 0\nq c 1 9 0\nr a - - 0\n\n\
                 from to colour rec\np r 0 1\nq r 0 0\n";
    let calls = calls(sheet);
    assert_eq!((calls.backdoor(2), calls.idle(2)), (Ok(true), Ok(true)));
}

/// The lab of 02's point 3: a phone and a letter recover the mail account, and only the letter's
/// edge is marked. Less that edge the phone alone, which costs 1, would open it.
#[test]
fn the_easier_route_is_gone() {
    let sheet = |loss| {
        format!(
            "name kind start loss rank\nfinger c 9 {loss} 0\nphone c 1 3 0\nletter c 5 1 0\n\
             mail a - - 1\n\nfrom to colour rec\nfinger mail 0 0\nphone mail 1 0\n\
             letter mail 1 1\n"
        )
    };
    assert!(printed(&sheet("-")).contains("\nmail 6 - yes yes\n"));
    assert!(printed(&sheet("2")).contains("\nmail 6 3 yes no\n"));
}

/// The colour of a target with a marked edge goes whole; other colours of the target stay, and so
/// does the same colour of another. A mark that is not in the rows counts as any other.
#[test]
fn whole_colours_are_taken_out() {
    let mut setup = Setup::empty();
    setup.places[0].rows = [0b110, 0b110, 0b010, 0, 0b001, 0, 0, 0b111];
    setup.places[0].recovery = [0b010, 0, 0b010, 0b001, 0b100, 0, 0, 0];
    setup.places[1].rows[0] = 0b101;
    let reduced = setup.without_recovery();
    assert_eq!(reduced.places[0].rows, [0, 0b110, 0, 0, 0, 0, 0, 0b111]);
    assert_eq!(reduced.places[1].rows, setup.places[1].rows);
    assert!(reduced.places.iter().all(|place| place.recovery == [0; COLOURS]));
}

/// Is there a colour of which some edges are marked and some are not?
fn is_mixed(setup: &Setup) -> bool {
    let mut rows = setup.places.iter().flat_map(|place| place.rows.iter().zip(place.recovery));
    rows.any(|(row, marked)| marked != 0 && marked != *row)
}

/// What 01 called without recovery: less the marked edges alone.
fn without_marked_edges(setup: &Setup) -> Setup {
    let mut reduced = setup.clone();
    for place in &mut reduced.places {
        for (row, marked) in place.rows.iter_mut().zip(&mut place.recovery) {
            *row &= !*marked;
            *marked = 0;
        }
    }
    reduced
}

/// Without recovery no score is lower; and where no colour is mixed, nothing has changed. Where the
/// marked edges alone go, some score is lower.
#[test]
fn no_easier_route() {
    let (mut unmixed, mut easier) = (0, 0);
    for case in random_sheets(23, 600) {
        let setup = brute::sheet::setup_of(&case.sheet);
        let [whole, edges] = [setup.without_recovery(), without_marked_edges(&setup)];
        if !is_mixed(&setup) {
            unmixed += 1;
            assert_eq!(whole, edges, "{}", case.label);
        }
        let [with, whole, edges] = [setup, whole, edges].map(|setup| Calls::new(&setup));
        for item in 0..with.setup().count {
            let [with, whole, edges] =
                [&with, &whole, &edges].map(|calls| calls.score(item).unwrap());
            assert!(with <= whole, "{}", case.label);
            easier += u32::from(edges < with);
        }
    }
    assert!(unmixed > 100 && easier > 10, "{unmixed} unmixed, {easier} easier");
}

#[test]
fn reports_have_their_shape() {
    for case in random_sheets(21, 1_200).chain(bounds()) {
        let text = String::from_utf8(report(&case.sheet)).expect("plain text");
        if text.starts_with("refused ") {
            assert_eq!(text.lines().count(), 1);
            continue;
        }
        let headers = ["target way size sum items", "target score risk back idle", "above below"];
        let parts: Vec<&str> = text.split("\n\n").collect();
        assert_eq!(parts.len(), 3, "{}", case.label);
        for (part, header) in parts.iter().zip(headers) {
            assert_eq!(part.lines().next(), Some(header), "{}", case.label);
        }
        assert!(text.ends_with('\n') && !text.ends_with("\n\n"));
    }
}

#[test]
fn large_reports() {
    let large: Vec<_> = large_sheets(22, 12).collect();
    for case in &large {
        let setup = brute::sheet::setup_of(&case.sheet);
        assert!(setup.count > 0, "{}", case.label);
        report(&case.sheet);
    }
}

#[test]
fn the_longest_reports() {
    let sizes: Vec<(usize, usize, usize)> = longest_reports()
        .iter()
        .map(|case| {
            let text = report(&case.sheet);
            let lengths: Vec<usize> =
                text.split_inclusive(|&byte| byte == b'\n').map(<[u8]>::len).collect();
            (lengths.len(), text.len(), lengths.into_iter().max().unwrap_or(0))
        })
        .collect();
    let rows: Vec<usize> = sizes.iter().map(|size| size.0).collect();
    let most = 28 * (3_432 + 3_003);
    assert!(rows[0] > 20_000 && rows[1] > 20_000 && rows[2] > most, "{sizes:?}");
    assert!(sizes[2].1 > 16_000_000, "{sizes:?}");
    assert_eq!(sizes[3].2, 275, "{sizes:?}");
}

/// Rows end at the program's buffer's last byte, one before and one behind, each on one sheet; and
/// likewise where the program last begins a new list, and where it last begins a row. On all sheets
/// but one the second target's list begins where a list may begin.
#[test]
fn full_buffers_end_at_rows() {
    let reports: Vec<Vec<u8>> = full_buffers().iter().map(|case| report(&case.sheet)).collect();
    for end in [BUFFER - ROOM, BUFFER - LONGEST, BUFFER] {
        for end in [end - 1, end, end + 1] {
            let row_ends = |text: &&Vec<u8>| text.len() > end && text[end - 1] == b'\n';
            assert_eq!(reports.iter().filter(row_ends).count(), 1, "{end}");
        }
    }
    let goes_on = |text: &&Vec<u8>| {
        text.windows(9).position(|bytes| bytes == b"\nit open ").expect("a list") < BUFFER - ROOM
    };
    assert_eq!(reports.iter().filter(goes_on).count(), reports.len() - 1);
}
