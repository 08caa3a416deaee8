//! imagetext FILE: writes to standard output the image that FILE describes.

use std::ffi::OsString;
use std::io::Write;
use std::path::Path;
use std::process::ExitCode;

fn main() -> ExitCode {
    let arguments: Vec<OsString> = std::env::args_os().skip(1).collect();
    let [file] = &arguments[..] else {
        eprintln!("usage: imagetext FILE");
        return ExitCode::from(2);
    };
    match write_image(Path::new(file)) {
        Ok(()) => ExitCode::SUCCESS,
        Err(message) => {
            eprintln!("{message}");
            ExitCode::FAILURE
        }
    }
}

fn write_image(file: &Path) -> Result<(), String> {
    let text = std::fs::read_to_string(file).map_err(|error| format!("{}: {error}", file.display()))?;
    let image = imagetext::image(&text).map_err(|fault| format!("{}:{fault}", file.display()))?;
    std::io::stdout().write_all(&image).map_err(|error| format!("standard output: {error}"))
}
