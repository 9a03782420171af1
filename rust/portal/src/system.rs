//! What a command needs of the system and Rust's library does not give: how it stood with the three
//! standard streams at the start, and the end that a reader's leaving means.

use std::os::raw::c_int;
use std::sync::atomic::{AtomicBool, Ordering};

const SIGPIPE: c_int = 13;
const BY_DEFAULT: usize = 0;
const FLAGS_OF: c_int = 1;

extern "C" {
    fn signal(number: c_int, action: usize) -> usize;
    fn fcntl(descriptor: c_int, what: c_int, ...) -> c_int;
}

/// Which of the descriptors 0, 1, 2 were closed when the program was started.
static CLOSED: [AtomicBool; 3] = [const { AtomicBool::new(false) }; 3];

/// Looks at the descriptors. Rust's start puts /dev/null in the place of closed ones, which would take
/// an answer and say nothing, so this runs before it.
extern "C" fn look() {
    for (descriptor, closed) in CLOSED.iter().enumerate() {
        let open = unsafe { fcntl(descriptor as c_int, FLAGS_OF) } != -1;
        closed.store(!open, Ordering::Relaxed);
    }
}

#[used]
#[link_section = ".init_array"]
static BEFORE_START: extern "C" fn() = look;

/// Was standard input (0), output (1) or error (2) closed when the program was started?
pub fn was_closed(descriptor: usize) -> bool {
    CLOSED.get(descriptor).is_some_and(|closed| closed.load(Ordering::Relaxed))
}

/// A reader that goes away ends the program quietly, as it does one in C. (Rust's start has the signal
/// ignored.)
pub fn end_with_the_reader() {
    unsafe {
        signal(SIGPIPE, BY_DEFAULT);
    }
}
