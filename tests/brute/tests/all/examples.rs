//! 01's bench examples B1 to B12, and examples of 003.

use crate::{calls, set};
use brute::cases::readings::{ORDER_REPORT, ORDER_SHEET, RING_SHEET};
use brute::report::{portal_risk, portal_score, report};
use brute::{Calls, Least, Marks, Way};

// The items of 01's sheet.
const ORDPW: u64 = 0;
const MAILPW: u64 = 1;
const TOKEN: u64 = 2;
const MAIL: u64 = 3;
const ORDER: u64 = 4;

/// A sheet with one item row and these edge rows.
fn one_item(item: &str, edges: &str) -> Calls {
    calls(format!("name kind start loss rank\n{item}\n\nfrom to colour rec\n{edges}"))
}

#[test]
fn b1_closure_of_the_empty_set() {
    assert_eq!(calls(ORDER_SHEET).closure(0), Ok(0));
}

#[test]
fn b2_closure_of_mailpw() {
    let closure = calls(ORDER_SHEET).closure(set(&[MAILPW]));
    assert_eq!(closure, Ok(set(&[MAILPW, MAIL, ORDER])));
}

#[test]
fn passes_on_the_bench_sheet() {
    let calls = calls(ORDER_SHEET);
    let all = [ORDPW, MAILPW, TOKEN, MAIL, ORDER];
    assert_eq!(calls.passes(0), Ok(1));
    assert_eq!(calls.passes(set(&[MAILPW])), Ok(3));
    assert_eq!(calls.passes(set(&[ORDPW, TOKEN])), Ok(2));
    assert_eq!(calls.passes(set(&[ORDPW, MAILPW, TOKEN])), Ok(2));
    assert_eq!(calls.passes(set(&all)), Ok(1));
}

#[test]
fn b3_b4_both_lists_of_order() {
    let openings = [set(&[MAILPW]), set(&[ORDPW, TOKEN])];
    let lockouts = [set(&[ORDPW, MAILPW]), set(&[MAILPW, TOKEN])];
    let calls = calls(ORDER_SHEET);
    assert_eq!(calls.opening_list(ORDER), Ok(&openings[..]));
    assert_eq!(calls.lockout_list(ORDER), Ok(&lockouts[..]));
    let mut lent = [77; 6];
    assert_eq!(calls.lists(ORDER, &mut lent), Ok((2, 2)));
    assert_eq!(lent, [openings[0], openings[1], lockouts[0], lockouts[1], 77, 77]);
}

#[test]
fn b5_score_and_risk_of_order() {
    let calls = calls(ORDER_SHEET);
    assert_eq!(calls.score(ORDER), Ok(Least::Sum(1)));
    assert_eq!(calls.risk(ORDER), Ok(Least::Sum(3)));
}

#[test]
fn b6_way_in_from_mailpw() {
    let (mut items, mut colours) = ([9; 3], [9; 2]);
    let way = calls(ORDER_SHEET).way_in(set(&[MAILPW]), ORDER, &mut items, &mut colours);
    assert_eq!(way, Ok(Way::Steps(2)));
    assert_eq!(items, [MAIL as u8, ORDER as u8, 9]);
    assert_eq!(colours, [0, 1]);
}

#[test]
fn b7_marks() {
    let handed = [set(&[MAILPW]), set(&[MAILPW]), set(&[MAILPW, TOKEN]), set(&[TOKEN])];
    let marks = calls(ORDER_SHEET).mark_openings(ORDER, &handed);
    assert_eq!(marks, Ok(Marks { repeated: 1, shut: 1, loose: 1, right: 1, missing: 1 }));
}

#[test]
fn b8_the_ring_of_example_5() {
    let (pwd_backup, pwd_manager, device, seed, acc_backup) = (0, 1, 2, 3, 5);
    let openings = [
        set(&[pwd_backup, device]),
        set(&[pwd_manager, device]),
        set(&[pwd_backup, seed]),
        set(&[pwd_manager, seed]),
    ];
    assert_eq!(calls(RING_SHEET).opening_list(acc_backup), Ok(&openings[..]));
}

#[test]
fn b9_b10_one_item_without_edges() {
    assert_eq!(one_item("p a 5 - 0", "").score(0), Ok(Least::Sum(5)));
    assert_eq!(one_item("p a - - 0", "").score(0), Ok(Least::Never));
}

#[test]
fn b11_one_item_that_needs_itself() {
    let calls = one_item("p a - 4 0", "p p 0 0\n");
    assert_eq!(calls.opening_list(0), Ok(&[][..]));
    assert_eq!(calls.lockout_list(0), Ok(&[1][..]));
    assert_eq!((calls.score(0), calls.risk(0)), (Ok(Least::Never), Ok(Least::Sum(4))));
}

#[test]
fn b12_two_items_that_open_each_other() {
    let sheet = "name kind start loss rank\np a - 1 0\nq a - 1 0\n\nfrom to colour rec\n\
                 p q 0 0\nq p 0 0\n";
    assert_eq!(calls(sheet).lockout_list(0), Ok(&[1, 2][..]));
}

#[test]
fn the_report_of_01() {
    let printed = report(ORDER_SHEET.as_bytes());
    assert_eq!(String::from_utf8_lossy(&printed), ORDER_REPORT);
}

#[test]
fn the_portal_on_the_sheet_of_01() {
    let sheet = ORDER_SHEET.as_bytes();
    let never = 1 << 62;
    assert_eq!((portal_score(sheet, ORDER), portal_risk(sheet, ORDER)), (1, 3));
    assert_eq!(portal_score(sheet, 5), never + 13);
    assert_eq!(portal_score(b"", 5), never + 2);
    assert_eq!(portal_risk(b"\n", u64::MAX), never + 3);
    let bare = b"name kind start loss rank\np a - - 0\n\nfrom to colour rec\n";
    assert_eq!((portal_score(bare, 0), portal_risk(bare, 0)), (never, never));
}

/// Figures 1 and 8 of 003, with the initial scores of example 17.
const FIGURE_8: &str = "\
name kind start loss rank
pwd_shop c 1 1 0
pwd_mail c 1 1 0
device c 2 1 0
finger c 2 1 0
pin c 1 1 0
code c 5 - 0
mail a 3 - 0
shop a 3 - 0

from to colour rec
pwd_shop shop 0 0
mail shop 1 1
pwd_mail mail 0 0
code mail 0 0
device code 0 0
finger code 0 0
device code 1 0
pin code 1 0
";

#[test]
fn examples_2_17_18_and_19_of_003() {
    let (pwd_shop, pwd_mail, device, finger, pin, code, mail, shop) = (0, 1, 2, 3, 4, 5, 6, 7);
    let calls = calls(FIGURE_8);
    let held = set(&[pwd_mail, device, pin]);
    assert_eq!(calls.closure(held), Ok(held | set(&[code, mail, shop])));
    let openings = [
        set(&[pwd_shop]),
        set(&[mail]),
        set(&[shop]),
        set(&[pwd_mail, code]),
        set(&[pwd_mail, device, finger]),
        set(&[pwd_mail, device, pin]),
    ];
    assert_eq!(calls.opening_list(shop), Ok(&openings[..]));
    assert_eq!(calls.score(mail), Ok(Least::Sum(3)));
    assert_eq!(calls.score(shop), Ok(Least::Sum(1)));
    let lost = set(&[pwd_shop, device]);
    assert_eq!(calls.lost_set(lost), Ok(lost | set(&[code, mail, shop])));
    let lockouts =
        [set(&[pwd_shop, pwd_mail]), set(&[pwd_shop, device]), set(&[pwd_shop, finger, pin])];
    assert_eq!(calls.lockout_list(shop), Ok(&lockouts[..]));
}

#[test]
fn example_22_of_003_an_indirect_backdoor() {
    let calls = calls(
        "name kind start loss rank\npwd_bank c 1 - 0\ndevice c 2 - 0\npwd_a c 1 - 0\n\
         pwd_b c 1 - 0\nbank a - - 2\nmail_a a - - 1\nmail_b a - - 1\n\nfrom to colour rec\n\
         pwd_bank bank 0 0\ndevice bank 0 0\nmail_a bank 1 1\npwd_a mail_a 0 0\n\
         device mail_a 0 0\nmail_b mail_a 1 1\npwd_b mail_b 0 0\n",
    );
    let (pwd_bank, device, pwd_a, pwd_b, bank, mail_b) = (0, 1, 2, 3, 4, 6);
    let openings = [set(&[pwd_b]), set(&[pwd_bank, device]), set(&[device, pwd_a])];
    assert_eq!(calls.opening_list(bank), Ok(&openings[..]));
    assert_eq!(calls.score(bank), Ok(Least::Sum(1)));
    assert_eq!(calls.backdoor(bank), Ok(true));
    assert_eq!(calls.backdoor(mail_b), Ok(false));
    assert_eq!(calls.out_of_rank(bank, mail_b), Ok(true));
    assert_eq!(calls.out_of_rank(mail_b, bank), Ok(false));
}

#[test]
fn example_23_of_003_an_idle_recovery() {
    let calls = calls(
        "name kind start loss rank\npwd_mail c - 1 0\npwd_shop c - 3 0\ndevice c - 2 0\n\
         manager a - - 0\ncode c - - 0\nmail a - - 0\nshop a - - 0\n\nfrom to colour rec\n\
         device manager 0 0\nmanager pwd_shop 0 0\ndevice code 0 0\npwd_mail mail 0 0\n\
         code mail 0 0\npwd_shop shop 0 0\nmail shop 1 1\n",
    );
    let (pwd_mail, pwd_shop, device, shop) = (0, 1, 2, 6);
    let lockouts = [set(&[device]), set(&[pwd_mail, pwd_shop])];
    assert_eq!(calls.lockout_list(shop), Ok(&lockouts[..]));
    assert_eq!(calls.risk(shop), Ok(Least::Sum(2)));
    assert_eq!(calls.idle(shop), Ok(true));
}
