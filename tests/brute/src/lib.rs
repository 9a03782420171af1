//! An independent brute force for account access graphs, written from documents 01, 02 and 003
//! alone. It shares no definition with the proved code: wherever the two differ on some input,
//! one of them reads the documents wrongly.
//!
//! Everything is done in the plainest way there is: fixpoints by repeated passes, lists by
//! going through all subsets. Speed comes second, and cleverness not at all.
//!
//! * [`sheet`] reads a sheet: the setup and the names, or the refusal's number and line.
//! * [`setup`] is the setup as plain data, with question 12.
//! * [`graph`] has closures, lost sets and ways in; [`lists`] the lists, cut sets, least sums and
//!   marks.
//! * [`forecast`] tells how long an opening list can be (02, point 10), [`kinds`] which kinds of
//!   intruder could get in (02, point 1).
//! * [`next`] shows an opening list one set at a time (02, point 9).
//! * [`register`] works the class register out from the log of its calls (02, point 12).
//! * [`handin`] reads the lines that hand sets in by name.
//! * [`bags`] compares bags of values, and has the scores that keep their parts (02, point 6).
//! * [`living`] has the calls that change a setup (02, point 8).
//! * [`pool`] pools two sheets (02, point 11); [`save`] writes the sheet of a setup.
//! * [`calls`] answers as the product's calls do: questions 12 to 17, and 21, in order, lent lists.
//! * [`report`] prints the report's bytes and the portal's numbers.
//! * [`cases`] makes the inputs on which the two programs are compared.

pub mod bags;
pub mod calls;
pub mod cases;
pub mod forecast;
pub mod graph;
pub mod handin;
pub mod kinds;
pub mod lists;
pub mod living;
pub mod next;
pub mod pool;
pub mod register;
pub mod report;
pub mod save;
pub mod setup;
pub mod sheet;

pub use calls::{Calls, Way};
pub use lists::{Least, Marks};
pub use living::Edit;
pub use setup::{Place, Setup};
pub use sheet::{Refusal, Sheet};
