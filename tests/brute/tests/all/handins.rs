//! Hand-in lines, worked out by hand.

use brute::handin::{read_line, read_set, set_text, No};
use brute::register::{Attempt, Call};

fn names() -> Vec<String> {
    ["ordpw", "mailpw", "token", "mail", "order"].map(str::to_string).to_vec()
}

#[test]
fn sets_by_their_names() {
    for (text, set) in [
        ("-", Ok(0)),
        ("ordpw", Ok(1)),
        ("order+ordpw", Ok(17)),
        ("mail+token+mailpw", Ok(14)),
        ("", Err(5)),
        ("+", Err(5)),
        ("mail+", Err(5)),
        ("mail++token", Err(5)),
        ("Mail", Err(5)),
        ("seventeen_letters", Err(5)),
        ("mai", Err(8)),
        ("mailp", Err(8)),
        ("sixteen_letters_", Err(8)),
        ("mail+mail", Err(6)),
        ("mail+x+mail", Err(8)),
        ("mail+mail+Mail", Err(6)),
    ] {
        assert_eq!(read_set(&names(), text.as_bytes()), set, "{text}");
    }
    assert_eq!(set_text(&names(), 0), Some("-".to_string()));
    assert_eq!(set_text(&names(), 21), Some("ordpw+token+order".to_string()));
    assert_eq!(set_text(&names(), 32), None);
}

#[test]
fn what_lines_say() {
    let said = read_line(&names(), b"1017 order lock token+mailpw - -");
    let Ok(Call::HandIn(Attempt { student, target, lock, sets })) = said else {
        panic!("{said:?}")
    };
    assert_eq!((student, target, lock, sets), (1017, 4, true, vec![6, 0, 0]));
    let said = read_line(&names(), b"0 mail open");
    let Ok(Call::HandIn(Attempt { student, target, lock, sets })) = said else {
        panic!("{said:?}")
    };
    assert_eq!((student, target, lock, sets), (0, 3, false, vec![]));
    let said = read_line(&names(), b"4000000000 withdraw");
    assert!(matches!(said, Ok(Call::Withdraw(4_000_000_000))), "{said:?}");
}

#[test]
fn the_first_no_of_a_line() {
    for (line, number, field) in [
        ("1017 order\topen", 2, 0),
        ("1017 order open \u{7f}", 2, 0),
        ("", 4, 1),
        ("x ", 4, 2),
        ("1017", 4, 2),
        ("1017 ", 4, 2),
        ("1017 order", 4, 3),
        ("x order", 4, 3),
        ("1017 withdraw ", 4, 3),
        ("1017 order open  mail", 4, 4),
        ("1017 order open mail ", 4, 5),
        ("4000000001 withdraw", 5, 1),
        ("00 order open", 5, 1),
        ("-1 Order shut +", 5, 1),
        ("1017 Order shut +", 5, 2),
        ("1017 orders shut +", 8, 2),
        ("1017 withdraw open", 8, 2),
        ("1017 order Open +", 5, 3),
        ("1017 order open mail mail+ mail+mail", 5, 5),
        ("1017 order open mail mail+mail x", 6, 5),
        ("1017 order open mail x mail+mail", 8, 5),
    ] {
        let said = read_line(&names(), line.as_bytes());
        assert_eq!(said.err(), Some(No { number, field }), "{line:?}");
    }
}

#[test]
fn the_most_sets_of_a_line() {
    let line = |many: usize| format!("7 mail open{}", " -".repeat(many)).into_bytes();
    assert!(read_line(&names(), &line(16_384)).is_ok());
    let said = read_line(&names(), &line(16_385));
    assert_eq!(said.err(), Some(No { number: 7, field: 0 }));
    let last = [line(16_385), b"+".to_vec()].concat();
    let said = read_line(&names(), &last);
    assert_eq!(said.err(), Some(No { number: 5, field: 16_388 }));
}
