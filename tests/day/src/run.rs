//! Runs the command in a folder of its own.

use std::io::Write;
use std::path::PathBuf;
use std::process::{Command, Stdio};

/// The command, and the folder with its files.
pub struct Day {
    command: PathBuf,
    folder: PathBuf,
    /// How often it was run.
    pub runs: usize,
}

/// What came out.
#[derive(Clone, Debug, PartialEq, Eq)]
pub struct Ran {
    /// The exit status; nothing where a signal ended it.
    pub status: Option<i32>,
    /// Standard output.
    pub out: String,
    /// Standard error.
    pub err: String,
}

impl Day {
    /// Of this command, in a new folder.
    pub fn new(command: PathBuf) -> Day {
        let folder = std::env::temp_dir().join(format!("day-{}", std::process::id()));
        std::fs::create_dir_all(&folder).expect("a folder");
        Day { command, folder, runs: 0 }
    }

    /// Writes a file of the folder.
    pub fn write(&self, name: &str, bytes: &[u8]) {
        std::fs::write(self.folder.join(name), bytes).expect("a file");
    }

    /// Runs it with arguments and standard input.
    pub fn run(&mut self, arguments: &[&str], input: &[u8]) -> Ran {
        self.runs += 1;
        let mut child = Command::new(&self.command)
            .args(arguments)
            .current_dir(&self.folder)
            .stdin(Stdio::piped())
            .stdout(Stdio::piped())
            .stderr(Stdio::piped())
            .spawn()
            .expect("the command runs");
        let mut to = child.stdin.take().expect("its input");
        let input = input.to_vec();
        let feeder = std::thread::spawn(move || {
            let _ = to.write_all(&input);
        });
        let done = child.wait_with_output().expect("it ends");
        feeder.join().expect("its input was given");
        let text = |bytes: Vec<u8>| String::from_utf8_lossy(&bytes).into_owned();
        Ran { status: done.status.code(), out: text(done.stdout), err: text(done.stderr) }
    }
}

impl Drop for Day {
    fn drop(&mut self) {
        let _ = std::fs::remove_dir_all(&self.folder);
    }
}
