//! The program `reference`: the commands that print listings, digests, traces and tables.

#![forbid(unsafe_code)]

mod commands;
mod options;

use std::io::{self, Write};
use std::process::ExitCode;

use commands::Failure;

/// What is printed where the command isn't known or its words are wrong.
const USAGE: &str = "usage: reference COMMAND
  verdicts                            records in, a line for each out
  digest [--words FILE]               the same with bytes taken and a hash of the words
  asm                                 text lines in, records out
  dis                                 records in, text lines out
  pack CALL PROCESS ARGUMENT PATH1 PATH2 LENGTH
                                      one record packed into so many bytes
  gen --seed S --calls N --mode M     a random trace; M: mixed links entries nodes
                                      processes holds damaged
  tables --seed S --count N [--rule NAME | --unsound | --bits K]
                                      random tables of 8,512 words
  tables --list                       the names of the rules
";

/// Runs the command of the program's words; 2 says wrong words, 1 a failed read or write.
fn main() -> ExitCode {
    let words: Option<Vec<String>> =
        std::env::args_os().skip(1).map(|word| word.into_string().ok()).collect();
    let outcome = match words {
        Some(words) => commands::run(&words),
        None => Err(Failure::Usage("arguments must be UTF-8".to_string())),
    };
    let (status, message) = match outcome {
        Ok(()) => return ExitCode::SUCCESS,
        Err(Failure::Usage(reason)) => (2, format!("reference: {reason}\n{USAGE}")),
        Err(Failure::Text(reason)) => (1, format!("reference: {reason}\n")),
        Err(Failure::File(error)) => (1, format!("reference: {error}\n")),
    };
    let _ = io::stderr().write_all(message.as_bytes());
    ExitCode::from(status)
}
