//! Plays a story, a text file of calls, through the proved service: for each call its place, who
//! called, the verdict, and the reason in plain words. The verdicts are the service's; the reasons
//! are looked up in its tables afterwards and only tell what is there.

#![forbid(unsafe_code)]
#![warn(missing_docs)]

mod granted;
mod paths;
mod refused;
mod stage;
mod story;
#[cfg(test)]
mod tests;
mod trail;
mod wording;

use std::io::{self, ErrorKind, Write};
use std::path::Path;
use std::process::ExitCode;

use stage::Stage;
use story::{Bad, Step};

/// Plays the story that the only argument names.
fn main() -> ExitCode {
    let files: Vec<_> = std::env::args_os().skip(1).collect();
    let done = match files.as_slice() {
        [file] => play(Path::new(file)),
        _ => Err("usage: player STORY".to_string()),
    };
    match done {
        Ok(()) => ExitCode::SUCCESS,
        Err(reason) => {
            eprintln!("{reason}");
            ExitCode::FAILURE
        }
    }
}

/// Plays the story of a file; nothing is played where a line is no call.
fn play(file: &Path) -> Result<(), String> {
    let text = std::fs::read(file).map_err(|error| format!("{}: {error}", file.display()))?;
    let steps = story::steps(&text).map_err(|bad| story::report(file, &bad))?;
    let told = tell(&steps, file.parent().unwrap_or(Path::new("")));
    let told = told.map_err(|bad| story::report(file, &[bad]))?;
    match io::stdout().write_all(told.as_bytes()) {
        Err(error) if error.kind() != ErrorKind::BrokenPipe => Err(error.to_string()),
        _ => Ok(()),
    }
}

/// The story with its verdicts; files that it names are looked up in the folder.
fn tell(steps: &[Step], folder: &Path) -> Result<String, Bad> {
    let mut told = String::new();
    let mut stage = Stage::fresh();
    let mut place = 0;
    for step in steps {
        match step {
            Step::Told(text) => told.push_str(text),
            Step::Tables(file, line) => {
                stage = Stage::of_file(&folder.join(file)).map_err(|reason| (*line, reason))?;
                told.push_str(&format!("      the tables of {file}"));
            }
            Step::Call(asked) => {
                place += 1;
                told.push_str(&format!("{place:>4}  {}", stage.play(asked)));
            }
        }
        told.push('\n');
    }
    Ok(told)
}
