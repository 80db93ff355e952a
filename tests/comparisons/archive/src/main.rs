//! Holds the proved archive against the reference on seeded random input, and prints how often
//! each answer came. The first difference is told and ends it.

mod difference;
mod edges;
mod fuzz;
mod records;
mod runs;
mod service;
mod story;
mod tables;
mod tally;
mod walks;

use std::process::ExitCode;

fn main() -> ExitCode {
    let words: Vec<String> = std::env::args().skip(1).collect();
    let words: Vec<&str> = words.iter().map(String::as_str).collect();
    let done = match words.as_slice() {
        ["edges"] => edges::compare(),
        ["records"] => records::compare(4, 20_000),
        ["service"] => service::compare(7, 100_000),
        ["runs"] => runs::compare(9, 2_000),
        ["tables"] => tables::compare(11, 200_000),
        ["walks"] => walks::compare(13, 300_000),
        ["story", file] => story::judge(file),
        ["fuzz", calls] => {
            numbers([calls, "1"]).and_then(|[calls, seed]| fuzz::compare(calls, seed))
        }
        ["fuzz", calls, seed] => {
            numbers([calls, seed]).and_then(|[calls, seed]| fuzz::compare(calls, seed))
        }
        _ => {
            eprintln!("usage: archive edges | records | service | runs | tables | walks | story FILE | fuzz CALLS [SEED]");
            return ExitCode::from(2);
        }
    };
    match done {
        Ok(()) => ExitCode::SUCCESS,
        Err(difference) => {
            eprintln!("archive: {difference}");
            ExitCode::FAILURE
        }
    }
}

/// The numbers of two words.
fn numbers(words: [&str; 2]) -> Result<[u64; 2], String> {
    let number = |word: &str| word.parse().map_err(|_| format!("{word} is no number"));
    Ok([number(words[0])?, number(words[1])?])
}
