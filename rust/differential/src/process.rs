//! A program that reads standard input and prints, run as a process.

use crate::report::Mismatch;
use std::ffi::OsStr;
use std::io::{self, Write};
use std::path::Path;
use std::process::{Command, Stdio};

/// What the program prints for that input; a failure of its own is a mismatch.
pub fn print(program: &OsStr, input: &[u8]) -> Result<Vec<u8>, Mismatch> {
    run(program, input).map_err(|error| Mismatch(format!("{}: {error}", Path::new(program).display())))
}

fn run(program: &OsStr, input: &[u8]) -> io::Result<Vec<u8>> {
    let [stdin, stdout, stderr] = [(); 3].map(|()| Stdio::piped());
    let mut child = Command::new(program).stdin(stdin).stdout(stdout).stderr(stderr).spawn()?;
    if let Some(mut stdin) = child.stdin.take() {
        // A program that has seen enough may close its input.
        stdin
            .write_all(input)
            .or_else(|error| if error.kind() == io::ErrorKind::BrokenPipe { Ok(()) } else { Err(error) })?;
    }
    let output = child.wait_with_output()?;
    if output.status.success() && output.stderr.is_empty() {
        return Ok(output.stdout);
    }
    Err(io::Error::other(format!("{}, and it says: {}", output.status, String::from_utf8_lossy(&output.stderr))))
}
