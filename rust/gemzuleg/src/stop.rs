//! How a command ends without an answer, and the statuses that a script sees.

use crate::refusals::Refusal;

/// Answered.
pub const ANSWERED: u8 = 0;
/// Something was refused.
pub const REFUSED: u8 = 1;
/// Wrong use, or a file that cannot be read or written.
pub const FAILED: u8 = 2;
/// The command's own work disagrees with a proved call.
pub const DISAGREES: u8 = 3;

/// Why there is no answer.
#[derive(Debug)]
pub enum Stop {
    /// A proved call said no.
    Refused(Box<Refusal>),
    /// A file or program, and the system's words.
    Failed(String, String),
    /// The arguments are none that the help has.
    Wrong(String),
    /// What the command worked out is not what a proved call says.
    Disagrees(&'static str),
}

impl Stop {
    /// The status that this ends with.
    pub fn status(&self) -> u8 {
        match self {
            Stop::Refused(_) => REFUSED,
            Stop::Failed(..) | Stop::Wrong(_) => FAILED,
            Stop::Disagrees(_) => DISAGREES,
        }
    }

    /// What standard error gets, its last line end too.
    pub fn text(&self) -> String {
        match self {
            Stop::Refused(refusal) => refusal.text(),
            Stop::Failed(what, words) => format!("gemzuleg: {what}: {words}\n"),
            Stop::Wrong(what) => format!("gemzuleg: {what}; try 'gemzuleg --help'\n"),
            Stop::Disagrees(what) => {
                format!("gemzuleg: internal: {what} disagree with the proved call; please report\n")
            }
        }
    }
}

impl From<Refusal> for Stop {
    fn from(refusal: Refusal) -> Stop {
        Stop::Refused(Box::new(refusal))
    }
}

/// The answer, or why there is none.
pub type Answer<T> = Result<T, Stop>;

/// Goes on where the command's own work is what a proved call says, and else ends with status 3.
pub fn hold(agrees: bool, what: &'static str) -> Answer<()> {
    if agrees {
        Ok(())
    } else {
        Err(Stop::Disagrees(what))
    }
}

/// The answer of a call that these arguments can't make refuse.
pub fn answered<T>(result: Result<T, portal::Refusal>, what: &'static str) -> Answer<T> {
    result.map_err(|_| Stop::Disagrees(what))
}
