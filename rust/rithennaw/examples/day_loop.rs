//! A host that runs a day step by step and goes on after a power cut as if there had been none: it posts the plant's figures,
//! runs turns, saves the image, and gives each owner its view. In the folder `rust`, after `make`:
//!
//!     flock DAY cargo run --package rithennaw --example day_loop DAY OWNER0 OWNER1 OWNER2 OWNER3
//!
//! It is examples/c/day_loop.c in Rust, with the same files, exit statuses and messages, but for ` (os error N)` behind the
//! system's reasons. There it is said what the folders and the journal are, and why a power cut at any moment leaves a day that
//! the next start goes on with.

use rithennaw::{check, post, turns, view, Label, Refusal};
use std::env;
use std::ffi::OsString;
use std::fs::{self, File, OpenOptions};
use std::io::{self, BufRead, BufReader, ErrorKind, Write};
use std::os::unix::fs::OpenOptionsExt;
use std::path::{Path, PathBuf};
use std::process::ExitCode;
use std::str::FromStr;

// The names in the folders. `NEW` is the file that is written and then renamed.
const START: &str = "start.image";
const JOURNAL: &str = "journal";
const SAVED: &str = "saved";
const VIEW: &str = "view";
const NEW: &str = "new";

// Who may read a file: the host alone, or whoever the owner's folder lets in. The umask may take away from it.
const FOR_HOST: u32 = 0o600;
const FOR_OWNER: u32 = 0o644;

const OWNERS: usize = Label::OWNERS.len();

/// Writes a line for the host on standard error.
fn tell(line: &str) -> io::Result<()> {
    io::stderr().write_all(format!("{line}\n").as_bytes())
}

/// Why the program ends: its exit status, and what the host is told on standard error.
struct Stop {
    status: u8,
    why: String,
}

impl Stop {
    fn refused(what: &str, refusal: Refusal) -> Stop {
        Stop { status: 1, why: format!("{what} refused with {}: {}", refusal.number(), refusal.text()) }
    }

    fn unusable(why: String) -> Stop {
        Stop { status: 2, why }
    }

    fn cannot(act: &str, path: &Path, reason: &io::Error) -> Stop {
        Stop::unusable(format!("cannot {act} {}: {reason}", path.display()))
    }

    fn wrong(path: &Path, what: &str) -> Stop {
        Stop::unusable(format!("{}: {what}", path.display()))
    }

    fn no_step() -> Stop {
        Stop::unusable("a step is any number of `post SLOT LABEL VALUE` and then `turns COUNT`".into())
    }

    /// The same, with one more line to tell.
    fn and(self, more: &str) -> Stop {
        Stop { why: format!("{}\nday_loop: {more}", self.why), ..self }
    }
}

// ---- writing files so that a power cut leaves the former one or the new one

/// A folder, with its handle, by which the names in it are synced.
struct Folder {
    path: PathBuf,
    handle: File,
}

impl Folder {
    fn open(path: OsString) -> Result<Folder, Stop> {
        let path = PathBuf::from(path);
        // A plain file has no `.` in it, and is refused here, ahead of all writing.
        let opened = File::open(path.join("."));
        let handle = opened.map_err(|reason| Stop::cannot("open the folder", &path, &reason))?;
        Ok(Folder { path, handle })
    }

    /// Puts a file in the place of the former one. The disk has the bytes before the name stands for them, and the name
    /// before this returns.
    fn replace(&self, name: &str, mode: u32, bytes: &[u8]) -> Result<(), Stop> {
        let path = self.path.join(name);
        self.try_replace(&path, mode, bytes).map_err(|reason| Stop::cannot("write", &path, &reason))
    }

    fn try_replace(&self, path: &Path, mode: u32, bytes: &[u8]) -> io::Result<()> {
        let new = self.path.join(NEW);
        let mut file = OpenOptions::new().write(true).create(true).truncate(true).mode(mode).open(&new)?;
        file.write_all(bytes)?;
        file.sync_all()?;
        fs::rename(&new, path)?;
        self.handle.sync_all()
    }
}

// ---- a step: a line of the journal

/// A word of decimal digits alone as a number.
fn number<T: FromStr>(word: Option<&str>) -> Option<T> {
    // `parse` would take a sign too.
    word.filter(|word| word.bytes().all(|byte| byte.is_ascii_digit()))?.parse().ok()
}

/// Tells the host, and nobody else, that a message was dropped: before the step is saved, which is not done where this cannot
/// be written.
fn tell_dropped(line: u64, slot: u32) -> Result<(), Stop> {
    tell(&format!("day_loop: line {line}: the message to slot {slot} was dropped"))
        .map_err(|reason| Stop::unusable(format!("cannot write to standard error: {reason}")))
}

/// Posts what the next three words say. A message that is dropped is no fault.
fn post_words<'a>(line: u64, words: &mut impl Iterator<Item = &'a str>, image: &[u8]) -> Result<Vec<u8>, Stop> {
    let mut next = || number(words.next()).ok_or_else(Stop::no_step);
    let (slot, label, value): (u32, u32, u32) = (next()?, next()?, next()?);
    let posted = post(image, slot, label, value).map_err(|refusal| Stop::refused("post", refusal))?;
    if !posted.delivered {
        tell_dropped(line, slot)?;
    }
    Ok(posted.image)
}

/// Runs as many turns as the next word says, which is the line's last. The busy count is for the host alone, and not kept.
fn run_words<'a>(words: &mut impl Iterator<Item = &'a str>, image: &[u8]) -> Result<Vec<u8>, Stop> {
    let count = number(words.next()).ok_or_else(Stop::no_step)?;
    if words.next().is_some() {
        return Err(Stop::no_step());
    }
    let turned = turns(image, count).map_err(|refusal| Stop::refused("turns", refusal))?;
    Ok(turned.image)
}

/// The image after a line: the postings, then the turns.
fn carry_out(line: u64, text: &str, image: &[u8]) -> Result<Vec<u8>, Stop> {
    let mut image = image.to_vec();
    let mut words = text.split(' ').filter(|word| !word.is_empty());
    loop {
        match words.next() {
            Some("post") => image = post_words(line, &mut words, &image)?,
            Some("turns") => return run_words(&mut words, &image),
            _ => return Err(Stop::no_step()),
        }
    }
}

/// The next line of the journal that is whole, without its line feed.
fn next_line(journal: &mut impl BufRead) -> io::Result<Option<String>> {
    let mut line = Vec::new();
    journal.read_until(b'\n', &mut line)?;
    // Bytes that are no text are in no word that is taken.
    Ok(line.strip_suffix(b"\n").map(|text| String::from_utf8_lossy(text).into_owned()))
}

// ---- the day

struct Day {
    own: Folder,
    owners: Vec<Folder>,
    lines_done: u64,
    image: Vec<u8>,
}

impl Day {
    /// Goes on where the day stands, or begins it. The run before may have ended when `saved` had its name and the disk did
    /// not have that: it is synced, as it would be at the end of a save.
    fn resume(own: Folder, owners: Vec<Folder>) -> Result<Day, Stop> {
        let path = own.path.join(SAVED);
        let saved = match fs::read(&path) {
            Err(reason) if reason.kind() == ErrorKind::NotFound => return Day::begin(own, owners),
            read => read.map_err(|reason| Stop::cannot("read", &path, &reason))?,
        };
        own.handle.sync_all().map_err(|reason| Stop::cannot("sync", &path, &reason))?;
        let Some(end) = saved.iter().position(|&byte| byte == b'\n') else {
            return Err(Stop::wrong(&path, "there is no line with the number of lines done"));
        };
        let lines_done = number(Some(&String::from_utf8_lossy(&saved[..end])))
            .ok_or_else(|| Stop::wrong(&path, "the first line is not the number of lines done"))?;
        let image = saved[end + 1..].to_vec();
        check(&image).map_err(|refusal| Stop::refused(SAVED, refusal))?;
        Ok(Day { own, owners, lines_done, image })
    }

    /// Begins the day. It is saved before a view is given, so that another start.image later changes nothing.
    fn begin(own: Folder, owners: Vec<Folder>) -> Result<Day, Stop> {
        let path = own.path.join(START);
        let image = fs::read(&path).map_err(|reason| Stop::cannot("read", &path, &reason))?;
        check(&image).map_err(|refusal| Stop::refused(START, refusal))?;
        let day = Day { own, owners, lines_done: 0, image };
        day.save()?;
        Ok(day)
    }

    /// One file has the number of lines done and the image, so that a single rename moves both.
    fn save(&self) -> Result<(), Stop> {
        self.own.replace(SAVED, FOR_HOST, &[format!("{}\n", self.lines_done).as_bytes(), &self.image].concat())
    }

    fn give_view(&self, folder: &Folder, label: Label) -> Result<(), Stop> {
        let shown = view(&self.image, label).map_err(|refusal| Stop::refused("view", refusal))?;
        folder.replace(VIEW, FOR_OWNER, &shown)
    }

    /// Gives each owner its view, which is all that an owner may be given. Where one cannot be written the others are.
    fn give_views(&self) -> Result<(), Stop> {
        let owners = self.owners.iter().zip(Label::OWNERS);
        let faults = owners.filter_map(|(folder, label)| self.give_view(folder, label).err());
        faults.reduce(|first, next| first.and(&next.why)).map_or(Ok(()), Err)
    }

    /// Takes a step: carries it out, saves it, and then gives the views.
    fn take_step(&mut self, text: &str) -> Result<(), Stop> {
        let line = self.lines_done + 1;
        let stopped = format!("stopped at line {line} of the journal; nothing of it was done");
        self.image = carry_out(line, text, &self.image).map_err(|stop| stop.and(&stopped))?;
        self.lines_done = line;
        self.save()?;
        self.give_views()
    }

    /// Takes a step for each line behind those that are done, once the disk has the line.
    fn go_on(&mut self) -> Result<(), Stop> {
        let path = self.own.path.join(JOURNAL);
        let unreadable = |reason| Stop::cannot("read", &path, &reason);
        let mut journal = BufReader::new(File::open(&path).map_err(unreadable)?);
        let mut line = 0;
        while let Some(text) = next_line(&mut journal).map_err(unreadable)? {
            line += 1;
            if line > self.lines_done {
                journal.get_ref().sync_all().map_err(|reason| Stop::cannot("sync", &path, &reason))?;
                self.take_step(&text)?;
            }
        }
        if line < self.lines_done {
            return Err(Stop::wrong(&path, "there are fewer lines than are done"));
        }
        Ok(())
    }
}

fn run(own: OsString, owners: impl Iterator<Item = OsString>) -> Result<(), Stop> {
    let own = Folder::open(own)?;
    let owners = owners.map(Folder::open).collect::<Result<_, _>>()?;
    let mut day = Day::resume(own, owners)?;
    day.give_views()?;
    day.go_on()
}

/// Ends the program. Where the host cannot be told why, it has the status.
fn end(status: u8, why: &str) -> ExitCode {
    let _ = tell(why);
    ExitCode::from(status)
}

fn main() -> ExitCode {
    let mut folders = env::args_os().skip(1);
    let (Some(own), OWNERS) = (folders.next(), folders.len()) else {
        return end(2, "usage: day_loop DAY OWNER0 OWNER1 OWNER2 OWNER3");
    };
    match run(own, folders) {
        Ok(()) => ExitCode::SUCCESS,
        Err(stop) => end(stop.status, &format!("day_loop: {}", stop.why)),
    }
}
