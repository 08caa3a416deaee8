//! An owner's desk: it takes the view that the host sent, runs it ahead and shows where the host's run will stand. In the
//! folder `rust`, after `make`:
//!
//!     cargo run --package rithennaw --example desk VIEW LABEL [--output FILE] [post SLOT LABEL VALUE | turns COUNT]...
//!
//! It is examples/desk/desk.c in Rust, with the same output, files, exit statuses and messages, but for ` (os error N)` behind
//! the system's reasons, for names in messages that are no UTF-8, and for a standard output that is closed at the start, in
//! whose place Rust opens /dev/null. There it is said what the words are, on what the view that is worked out rests, and why it
//! is taken again at the end.

use rithennaw::{check, post, sheet, turns, view, Refusal, IMAGE_MAX};
use std::env;
use std::ffi::{OsStr, OsString};
use std::fmt::Display;
use std::fs::{self, File, OpenOptions};
use std::io::{self, Read, Write};
use std::os::unix::fs::OpenOptionsExt;
use std::path::{Path, PathBuf};
use std::process::{self, ExitCode};
use std::str::FromStr;

const USAGE: &str = "usage: desk VIEW LABEL [--output FILE] [post SLOT LABEL VALUE | turns COUNT]...
COUNT is a decimal number of 64 bits, and LABEL, SLOT and VALUE are decimal numbers of 32 bits";

/// Why the program ends: its exit status, and what the owner is told on standard error.
struct Stop {
    status: u8,
    why: String,
}

impl Stop {
    fn refused(what: impl Display, refusal: Refusal) -> Stop {
        Stop { status: 1, why: format!("{what} refused with {}: {}", refusal.number(), refusal.text()) }
    }

    fn cannot(act: &str, what: impl Display, reason: impl Display) -> Stop {
        Stop { status: 2, why: format!("cannot {act} {what}: {reason}") }
    }
}

// ---- the command line

/// The next word, of decimal digits alone, as a number. Whether the monitor takes it is not judged here.
fn next_number<T: FromStr>(words: &mut impl Iterator<Item = OsString>) -> Option<T> {
    // `parse` would take a sign too.
    words.next()?.to_str().filter(|word| word.bytes().all(|byte| byte.is_ascii_digit()))?.parse().ok()
}

enum Step {
    Post { slot: u32, label: u32, value: u32 },
    Turns(u64),
}

impl Step {
    /// The step of a word and the numbers behind it.
    fn parse(word: &OsStr, words: &mut impl Iterator<Item = OsString>) -> Option<Step> {
        match word.to_str()? {
            "post" => {
                Some(Step::Post { slot: next_number(words)?, label: next_number(words)?, value: next_number(words)? })
            }
            "turns" => next_number(words).map(Step::Turns),
            _ => None,
        }
    }
}

struct Request {
    view: PathBuf,
    label: u32,
    output: Option<PathBuf>,
    steps: Vec<Step>,
}

impl Request {
    fn parse(words: impl Iterator<Item = OsString>) -> Option<Request> {
        let mut words = words.peekable();
        let view = words.next()?.into();
        let label = next_number(&mut words)?;
        let output = match words.next_if(|word| word == "--output") {
            Some(_) => Some(words.next()?.into()),
            None => None,
        };
        let mut steps = Vec::new();
        while let Some(word) = words.next() {
            steps.push(Step::parse(&word, &mut words)?);
        }
        Some(Request { view, label, output, steps })
    }
}

// ---- files

/// Reads a file and has the monitor check it. Of one that is longer than the longest image a byte more is read, by which it is
/// refused.
fn load(path: &Path) -> Result<Vec<u8>, Stop> {
    let mut image = Vec::new();
    File::open(path)
        .and_then(|file| file.take(IMAGE_MAX as u64 + 1).read_to_end(&mut image))
        .map_err(|reason| Stop::cannot("read", path.display(), reason))?;
    check(&image).map_err(|refusal| Stop::refused(path.display(), refusal))?;
    Ok(image)
}

/// Puts a file in the place of the former one, which stays as it was until the new one is whole.
fn replace(path: &Path, bytes: &[u8]) -> Result<(), Stop> {
    // A rename would put a file in the place of a link or a device too, such as /dev/null.
    if fs::symlink_metadata(path).is_ok_and(|former| !former.is_file()) {
        return Err(Stop::cannot("write", path.display(), "It is no plain file"));
    }
    try_replace(path, bytes).map_err(|reason| Stop::cannot("write", path.display(), reason))
}

/// The disk has the bytes before the name stands for them. Where that fails, what was written is removed.
fn try_replace(path: &Path, bytes: &[u8]) -> io::Result<()> {
    let mut new = path.as_os_str().to_owned();
    new.push(format!(".{}.new", process::id()));
    // With rights for its user alone. A file that is there already, or a link, is left alone.
    let mut file = OpenOptions::new().write(true).create_new(true).mode(0o600).open(&new)?;
    let replaced = file.write_all(bytes).and_then(|()| file.sync_all()).and_then(|()| fs::rename(&new, path));
    if replaced.is_err() {
        let _ = fs::remove_file(&new);
    }
    replaced
}

// ---- the view after the steps

/// The image after the steps, and how many turns they run in all. Whether a post was delivered is not told, and neither is the
/// busy count: with the host, who has the hidden tasks, both may be others.
fn take_steps(steps: &[Step], mut image: Vec<u8>) -> Result<(Vec<u8>, u64), Stop> {
    let mut sum = 0;
    for step in steps {
        match *step {
            Step::Post { slot, label, value } => {
                image = post(&image, slot, label, value).map_err(|refusal| Stop::refused("post", refusal))?.image;
            }
            Step::Turns(count) => {
                image = turns(&image, count).map_err(|refusal| Stop::refused("turns", refusal))?.image;
                sum += count; // at most 1,000,000 where it was accepted
            }
        }
    }
    Ok((image, sum))
}

/// Works out the view after the steps, and gives it once nothing can be refused any more. The view is taken at the start too,
/// since VIEW may have been made for more owners: the steps run on what LABEL admits.
fn work_out(request: &Request) -> Result<(), Stop> {
    let take_view = |image: &[u8]| view(image, request.label).map_err(|refusal| Stop::refused("view", refusal));
    let take_sheet = |view: &[u8]| sheet(view, request.label).map_err(|refusal| Stop::refused("sheet", refusal));
    let sent = take_view(&load(&request.view)?)?;
    let now = take_sheet(&sent)?;
    let (image, turns) = take_steps(&request.steps, sent)?;
    let after = take_view(&image)?;
    let then = take_sheet(&after)?;
    if let Some(path) = &request.output {
        replace(path, &after)?;
    }
    let heading = format!("after {turns} {}\n", if turns == 1 { "turn" } else { "turns" });
    print(&[b"now\n", &now[..], heading.as_bytes(), &then].concat())
}

/// Prints without a panic where that cannot be written.
fn print(bytes: &[u8]) -> Result<(), Stop> {
    let mut out = io::stdout().lock();
    out.write_all(bytes).and_then(|()| out.flush()).map_err(|reason| Stop::cannot("write", "the output", reason))
}

/// Ends the program. Where the owner cannot be told why, it has the status.
fn end(status: u8, why: &str) -> ExitCode {
    let _ = io::stderr().write_all(format!("{why}\n").as_bytes());
    ExitCode::from(status)
}

fn main() -> ExitCode {
    let Some(request) = Request::parse(env::args_os().skip(1)) else {
        return end(2, USAGE);
    };
    match work_out(&request) {
        Ok(()) => ExitCode::SUCCESS,
        Err(stop) => end(stop.status, &format!("desk: {}", stop.why)),
    }
}
