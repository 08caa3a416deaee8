//! Prints each owner's sheet of an image file: `cargo run --example owners IMAGE`.

use rithennaw::{sheet, Label};
use std::error::Error;
use std::io::{self, Write};
use std::process::ExitCode;
use std::{env, fs};

fn run() -> Result<(), Box<dyn Error>> {
    let path = env::args_os().nth(1).ok_or("usage: owners IMAGE")?;
    let image = fs::read(path)?;
    let mut out = io::stdout().lock();
    for (owner, label) in Label::OWNERS.into_iter().enumerate() {
        writeln!(out, "owner {owner}, label {label}")?;
        out.write_all(&sheet(&image, label)?)?;
    }
    Ok(())
}

fn main() -> ExitCode {
    match run() {
        Ok(()) => ExitCode::SUCCESS,
        Err(error) => {
            eprintln!("owners: {error}");
            ExitCode::FAILURE
        }
    }
}
