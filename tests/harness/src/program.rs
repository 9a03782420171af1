//! The program `report`, run on a sheet.

use std::io::Write;
use std::path::{Path, PathBuf};
use std::process::{Command, Stdio};

/// The program's file.
pub struct Program(PathBuf);

impl Program {
    /// The program, where the file is there.
    pub fn at(path: &Path) -> Option<Program> {
        path.is_file().then(|| Program(path.to_path_buf()))
    }

    /// What it prints for a sheet.
    pub fn report(&self, sheet: &[u8]) -> Vec<u8> {
        let mut started = Command::new(&self.0)
            .stdin(Stdio::piped())
            .stdout(Stdio::piped())
            .spawn()
            .expect("the program report starts");
        let mut input = started.stdin.take().expect("its standard input is a pipe");
        // A sheet is at most 20,000 bytes and a pipe has room for 65,536: this does not wait for
        // the program. One that stops reading early is told by its output.
        let _ = input.write_all(sheet);
        drop(input);
        started.wait_with_output().expect("the program report ends").stdout
    }
}
