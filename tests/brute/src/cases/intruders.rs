//! Small sheets on which a wrong score by kinds of intruder shows (02, point 1), with the list of
//! kinds, the target and the answer.

use super::SheetCase;

/// A sheet, a list of kinds, a target, and the answer.
pub struct KindsCase {
    /// The sheet, which is accepted.
    pub case: SheetCase,
    /// One kind for each item; other lengths and entries are refused.
    pub kinds: Vec<u8>,
    /// The target's item number.
    pub target: u64,
    /// The score or the refusal, worked out by hand.
    pub answer: Result<u64, u8>,
}

/// The starting items a and b open t, by the colours given.
fn two(colours: [u8; 2]) -> Vec<u8> {
    let items = "a c 1 - 0\nb c 1 - 0\nt a - - 0\n";
    let [a, b] = colours;
    let edges = format!("a t {a} 0\nb t {b} 0\n");
    format!("name kind start loss rank\n{items}\nfrom to colour rec\n{edges}").into_bytes()
}

/// 64 items, of which the last alone starts and opens the first.
fn far() -> Vec<u8> {
    let start = |number| if number == 63 { "1" } else { "-" };
    let items: String = (0..64).map(|i| format!("i{i} c {} - 0\n", start(i))).collect();
    format!("name kind start loss rank\n{items}\nfrom to colour rec\ni63 i0 7 0\n").into_bytes()
}

/// 003's figure 1. Figure 7's kinds are not in the text that we have: chosen so that they give its
/// three tuples.
fn shop() -> Vec<u8> {
    b"name kind start loss rank\npwd_shop c 1 1 0\npwd_mail c 1 1 0\ndevice c 1 1 0\nfinger c 1 1 0\n\
      pin c 1 1 0\ncode c - - 0\nacc_mail a - - 2\nacc_shop a - - 1\n\nfrom to colour rec\n\
      device code 0 0\nfinger code 0 0\ndevice code 1 0\npin code 1 0\npwd_mail acc_mail 0 0\n\
      code acc_mail 0 0\npwd_shop acc_shop 0 0\nacc_mail acc_shop 1 1\n"
        .to_vec()
}

/// All of them.
pub fn intruders() -> Vec<KindsCase> {
    let mut cases = Vec::new();
    let mut put = |label: &str, sheet: Vec<u8>, kinds: &[u8], target: u64, answer| {
        let case = SheetCase::accepted(format!("kinds: {label}"), sheet);
        cases.push(KindsCase { case, kinds: kinds.to_vec(), target, answer });
    };
    let (both, either) = (|| two([0, 0]), || two([0, 1]));
    put("both needed, the larger of each part", both(), &[3, 2, 0], 2, Ok(32));
    put("both needed, equal kinds", both(), &[1, 1, 0], 2, Ok(2));
    put("either, not to be compared", either(), &[3, 2, 0], 2, Ok(12));
    put("either, no chain", either(), &[3, 1, 0], 2, Ok(10));
    put("either, the lower stays", either(), &[4, 1, 0], 2, Ok(2));
    put("either, one kind counts once", either(), &[2, 2, 0], 2, Ok(4));
    put("an entry of no starting item", either(), &[0, 5, 255], 2, Ok(1));
    put("6 at a starting item", either(), &[0, 6, 0], 2, Err(17));
    put("255 at a starting item", either(), &[255, 0, 0], 2, Err(17));
    put("6 at a starting item that does not lead there", either(), &[0, 6, 0], 0, Err(17));
    put("16 before 17", either(), &[6, 6, 6, 6], 2, Err(16));
    put("too short", either(), &[0, 0], 2, Err(16));
    put("empty", either(), &[], 2, Err(16));
    put("64 entries for 3 items", either(), &[0; 64], 2, Err(16));
    put("13 before 16", either(), &[], 3, Err(13));
    put("the target itself", either(), &[5, 0, 0], 0, Ok(32));
    let closed = b"name kind start loss rank\nt a - - 0\n\nfrom to colour rec\nt t 0 0\n".to_vec();
    put("nobody", closed, &[255], 0, Ok(0));
    let last: Vec<u8> = (0..64).map(|item| if item == 63 { 4 } else { 255 }).collect();
    put("the last of 64", far(), &last, 0, Ok(16));
    let figure = [1, 1, 4, 5, 3, 255, 255, 255];
    put("003's example 16", shop(), &figure, 7, Ok(2));
    put("the mail account there", shop(), &figure, 6, Ok(16));
    cases
}

/// Each of their sheets once; the cases of a sheet stand together.
pub fn sheets() -> Vec<SheetCase> {
    let mut sheets: Vec<SheetCase> = intruders().into_iter().map(|case| case.case).collect();
    sheets.dedup_by(|next, last| next.sheet == last.sheet);
    sheets
}
