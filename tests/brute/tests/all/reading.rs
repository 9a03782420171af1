//! The reader: what the makers of cases know of each sheet, and the names.

use crate::accepted;
use brute::cases::bounds::bounds;
use brute::cases::damaged::damaged_sheets;
use brute::cases::noise::noise;
use brute::cases::random::random_draft;
use brute::cases::readings::{readings, ORDER_SHEET};
use brute::cases::{Rng, SheetCase, Told};
use brute::sheet::{name_of, read, setup_of, EDGE_HEADER, ITEM_HEADER};
use brute::Setup;

/// Holds a case's reading against what is known of it.
fn hold(case: &SheetCase) {
    let reading = read(&case.sheet);
    let agrees = match case.told {
        Told::Nothing => true,
        Told::Accepted => reading.is_ok(),
        Told::Refused(refusal) => reading.as_ref().err() == Some(&refusal),
    };
    let (label, told, text) = (&case.label, case.told, String::from_utf8_lossy(&case.sheet));
    assert!(agrees, "{label}: told {told:?}, read {:?} of\n{text}", reading.err());
}

#[test]
fn the_readings_that_must_be_kept() {
    readings().iter().for_each(hold);
}

#[test]
fn the_bounds() {
    bounds().iter().for_each(hold);
    let longest = bounds().into_iter().find(|case| case.label == "the longest accepted sheet");
    assert_eq!(longest.map(|case| case.sheet.len()), Some(11_626));
}

#[test]
fn damaged_sheets_are_refused_as_they_were_aimed() {
    damaged_sheets(1, 22_000).for_each(|case| hold(&case));
}

#[test]
fn rows_are_read_as_they_were_written() {
    let mut rng = Rng::new(2);
    for number in 0..4_000 {
        let draft = random_draft(&mut rng, number);
        let text = draft.text();
        let sheet = accepted(&text);
        assert_eq!(sheet.setup, draft.setup());
        let names: Vec<&[u8]> = sheet.names.iter().map(|part| &text[part.clone()]).collect();
        let written: Vec<&[u8]> = draft.items.iter().map(|item| item.name.as_bytes()).collect();
        assert_eq!(names, written);
    }
}

#[test]
fn names_are_parts_of_the_sheet() {
    let sheet = ORDER_SHEET.as_bytes();
    assert_eq!(&sheet[name_of(sheet, 0)], b"ordpw");
    assert_eq!(name_of(sheet, 0).start, ITEM_HEADER.len() + 1);
    assert_eq!(&sheet[name_of(sheet, 4)], b"order");
    for item in [5, 63, 64, u64::MAX] {
        assert_eq!(name_of(sheet, item), 0..0);
    }
    assert_eq!(name_of(b"", 0), 0..0);
    assert_eq!(name_of(&sheet[..sheet.len() - 1], 0), 0..0);
}

#[test]
fn a_refused_sheet_gives_the_empty_setup() {
    // All of 01's sheet is read before the last line is refused.
    let text = format!("{ORDER_SHEET}mail order 1 0\n");
    assert_eq!(read(text.as_bytes()).map_err(|refusal| refusal.number), Err(9));
    assert_eq!(setup_of(text.as_bytes()), Setup::empty());
}

#[test]
fn the_fields_of_a_setup() {
    let setup = accepted(ORDER_SHEET).setup;
    assert_eq!(setup.count, 5);
    let token = &setup.places[2];
    assert_eq!((token.kind, token.start, token.loss, token.rank), (b'c', Some(3), Some(2), 0));
    let order = &setup.places[4];
    assert_eq!((order.kind, order.start, order.loss, order.rank), (b'a', None, None, 3));
    assert_eq!(order.rows, [0b00101, 0b01000, 0, 0, 0, 0, 0, 0]);
    assert_eq!(order.recovery, [0, 0b01000, 0, 0, 0, 0, 0, 0]);
}

/// A second reader, written the other way round: a text is accepted exactly when it is what its
/// own setup and names say it is, rows written anew.
#[test]
fn accepted_texts_are_the_written_form_of_their_rows() {
    let mut accepted_ones = 0;
    for case in noise(3, 30_000) {
        let Ok(sheet) = read(&case.sheet) else { continue };
        accepted_ones += 1;
        let text = String::from_utf8(case.sheet).expect("plain text");
        let (items, edges) = text.split_once("\n\n").expect("an empty line");
        let shown = |value: Option<u64>| value.map_or("-".into(), |number| number.to_string());
        let mut written = String::from_utf8_lossy(ITEM_HEADER).into_owned();
        for (place, name) in sheet.setup.used().iter().zip(&sheet.names) {
            let (start, loss) = (shown(place.start), shown(place.loss));
            let (name, kind) = (&text[name.clone()], char::from(place.kind));
            written += &format!("\n{name} {kind} {start} {loss} {}", place.rank);
        }
        assert_eq!(items, written);
        // Edge rows may stand in any order.
        let name = |item: usize| &text[sheet.names[item].clone()];
        let mut rows = vec![String::from_utf8_lossy(EDGE_HEADER).into_owned()];
        for (to, place) in sheet.setup.used().iter().enumerate() {
            for colour in 0..8 {
                for from in brute::setup::items_of(place.rows[colour]) {
                    let mark = place.recovery[colour] >> from & 1;
                    rows.push(format!("{} {} {colour} {mark}", name(from), name(to)));
                }
            }
        }
        let mut lines: Vec<&str> = edges.lines().collect();
        lines.sort_unstable();
        rows.sort_unstable();
        assert_eq!(lines, rows);
    }
    assert!(accepted_ones > 1_000, "{accepted_ones} accepted");
}
