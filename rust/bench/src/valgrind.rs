//! Counts the instructions of a program by valgrind's tool callgrind: they are the same whatever else the machine does.

use crate::counted::{Work, COUNT};
use std::fs::{self, File, OpenOptions};
use std::io::{ErrorKind, Write};
use std::path::{Path, PathBuf};
use std::process::Command;

/// Whether valgrind is on the PATH; an error where it is but does not run.
pub fn is_there() -> Result<bool, String> {
    match Command::new("valgrind").arg("--version").output() {
        Ok(output) if output.status.success() => Ok(true),
        Ok(output) => Err(format!("valgrind --version failed: {}", output.status)),
        Err(error) if error.kind() == ErrorKind::NotFound => Ok(false),
        Err(error) => Err(format!("valgrind: {error}")),
    }
}

/// An input in a file of its own, so that a program reads it in the same pieces each time; removed in the end.
pub struct InputFile(PathBuf);

impl InputFile {
    pub fn new(input: &[u8]) -> Result<InputFile, String> {
        let path = std::env::temp_dir().join(format!("rithennaw-bench-{}", std::process::id()));
        let fault = |error| format!("{}: {error}", path.display());
        let mut file = OpenOptions::new().write(true).create_new(true).open(&path).map_err(fault)?;
        let input_file = InputFile(path.clone());
        file.write_all(input).map_err(fault)?;
        Ok(input_file)
    }
}

impl Drop for InputFile {
    fn drop(&mut self) {
        // Where it cannot be removed, a file of some kilobytes stays behind and the counts are right all the same.
        let _ = fs::remove_file(&self.0);
    }
}

/// The instructions of a program from its start to its end, with that work.
pub fn count(program: &Path, implementation: &str, work: Work, input: &InputFile) -> Result<u64, String> {
    let file = File::open(&input.0).map_err(|error| format!("{}: {error}", input.0.display()))?;
    let output = Command::new("valgrind")
        .args(["--tool=callgrind", "--callgrind-out-file=/dev/null"])
        .arg(program)
        .args([COUNT, implementation])
        .args(work.words())
        .stdin(file)
        .output()
        .map_err(|error| format!("valgrind: {error}"))?;
    let said = String::from_utf8_lossy(&output.stderr);
    if !output.status.success() {
        return Err(format!("{} below valgrind failed: {}\n{said}", program.display(), output.status));
    }
    collected(&said).ok_or_else(|| format!("valgrind tells no count of instructions:\n{said}"))
}

/// The number in callgrind's line `==PID== Collected : NUMBER`, if there is one such line and it is instructions that were
/// counted.
fn collected(said: &str) -> Option<u64> {
    let line = |head: &str| {
        let mut found = said.lines().filter_map(|line| {
            let (name, value) = line.strip_prefix("==")?.split_once("== ")?.1.split_once(':')?;
            (name.trim() == head).then_some(value.trim())
        });
        found.next().filter(|_| found.next().is_none())
    };
    line("Events").filter(|&events| events == "Ir")?;
    line("Collected")?.parse().ok()
}

#[cfg(test)]
mod tests {
    use super::{collected, InputFile};

    const SAID: &str = "\
==13647== Callgrind, a call-graph generating cache profiler
==13647== Command: /bin/true
==13647== 
==13647== For interactive control, run 'callgrind_control -h'.
==13647== 
==13647== Events    : Ir
==13647== Collected : 126745
==13647== 
==13647== I   refs:      126,745
";

    #[test]
    fn the_collected_instructions_are_read() {
        assert_eq!(collected(SAID), Some(126_745));
    }

    #[test]
    fn anything_else_is_no_count() {
        for (from, to) in [
            ("Collected : 126745", ""),
            ("126745", "126745 5"),
            ("126745", "126,745"),
            ("126745", ""),
            (": Ir", ": Ir Dr"),
            ("Events ", "Event "),
            ("==13647== Collected : 126745", "==1== Collected : 1\n==1== Collected : 2"),
        ] {
            assert_eq!(collected(&SAID.replacen(from, to, 1)), None, "{to} for {from}");
        }
    }

    #[test]
    fn an_input_is_in_its_file_until_it_is_dropped() {
        let input = InputFile::new(b"bytes").unwrap();
        let path = input.0.clone();
        assert_eq!(std::fs::read(&path).unwrap(), b"bytes");
        assert!(InputFile::new(b"others").is_err(), "one at a time");
        drop(input);
        assert!(!path.exists());
    }
}
