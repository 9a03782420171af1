//! Times: medians of calls in turn, and the processor time of a program.

use std::path::Path;
use std::process::{Command, Stdio};
use std::time::Instant;

/// The median of some times.
pub fn median(mut times: Vec<f64>) -> f64 {
    times.sort_by(f64::total_cmp);
    times[times.len() / 2]
}

/// The time of one call, in seconds.
pub fn once(work: impl FnOnce()) -> f64 {
    let start = Instant::now();
    work();
    start.elapsed().as_secs_f64()
}

/// The medians of pieces of work that are done in turn, after one round that does not count.
pub fn in_turn<const N: usize>(rounds: usize, mut works: [&mut dyn FnMut(); N]) -> [f64; N] {
    let mut times = [const { Vec::new() }; N];
    works.iter_mut().for_each(|work| work());
    for _ in 0..rounds {
        for (list, work) in times.iter_mut().zip(&mut works) {
            list.push(once(work));
        }
    }
    times.map(median)
}

#[repr(C)]
#[derive(Clone, Copy, Default)]
struct Seconds {
    whole: i64,
    millionths: i64,
}

impl Seconds {
    fn total(self) -> f64 {
        self.whole as f64 + self.millionths as f64 / 1e6
    }
}

/// The C library's `struct rusage` on Linux of 64 bits.
#[repr(C)]
#[derive(Default)]
struct Usage {
    user: Seconds,
    system: Seconds,
    others: [i64; 14],
}

extern "C" {
    fn wait4(process: i32, status: *mut i32, options: i32, usage: *mut Usage) -> i32;
}

/// The processor time of a program from start to end, its output thrown away. It is to end with the
/// exit status `exit`.
#[allow(clippy::zombie_processes)] // It is waited for by `wait4`, which tells the time.
pub fn processor_time(program: &Path, arguments: &[&str], input: &Path, exit: i32) -> f64 {
    let sheet = std::fs::File::open(input).expect("the input of a timed program is there");
    let mut command = Command::new(program);
    command.args(arguments).stdin(Stdio::from(sheet)).stdout(Stdio::null());
    let child = command.spawn().expect("a timed program starts");
    let (mut status, mut usage) = (0, Usage::default());
    let ended = unsafe { wait4(child.id() as i32, &mut status, 0, &mut usage) };
    assert_eq!(ended, child.id() as i32, "a timed program is waited for");
    // An exit status stands in the second byte; the first is 0 where no signal ended the program.
    assert_eq!(status, exit << 8, "{} failed", program.display());
    usage.user.total() + usage.system.total()
}
