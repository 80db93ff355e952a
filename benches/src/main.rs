//! What the proved code costs: a table of times, each with its ratio to a plain loop measured in the same run (no words), or, for callgrind,
//! one thing done so many times (`count GROUP PLACE TIMES`) or a trace for the programs (`trace mixed` or `trace full` and how many calls); `list` names the
//! things. benches/run calls them.

mod clock;
mod filled;
mod listing;
mod records;
mod tables;

use std::io::Write;
use std::process::ExitCode;

use clock::Group;

/// How many times as long the test of soundness takes, at the least, where all names are in one chain. It takes some forty times as long.
const LONG_CHAIN: f64 = 5.0;

/// The groups whose things are functions of the archive.
fn functions() -> Vec<Group> {
    vec![records::group(), tables::group()]
}

/// Prints the times of a group, and gives them with their names.
fn measure(mut group: Group) -> Vec<(String, f64)> {
    let times = group.nanoseconds();
    for (work, time) in group.works.iter().zip(&times) {
        println!("| {} | {time:.0} ns | {:.2} |", work.name, time / times[0]);
    }
    group.works.into_iter().map(|work| work.name).zip(times).collect()
}

/// Measures everything. Whether the names that should fall into one chain did so: the numbers of the hash stand in filled.rs once more, and could part
/// from those of crates/index.
fn measure_all() -> bool {
    println!("| what | time | ratio |\n|---|---|---|");
    let groups = functions().into_iter().chain(listing::groups());
    let times: Vec<(String, f64)> = groups.flat_map(measure).collect();
    listing::tidy();
    let time = |name: &str| times.iter().find(|(other, _)| other == name).map(|(_, time)| *time);
    match (time(tables::SOUND_FULL), time(tables::SOUND_ONE_CHAIN)) {
        (Some(full), Some(one_chain)) => one_chain > LONG_CHAIN * full,
        _ => false,
    }
}

fn list() {
    for group in functions() {
        for (place, work) in group.works.iter().enumerate() {
            println!("{}\t{place}\t{}\t{}", group.name, work.things, work.name);
        }
    }
}

fn count(name: &str, place: &str, times: &str) -> Option<()> {
    let mut group = functions().into_iter().find(|group| group.name == name)?;
    group.works.get_mut(place.parse::<usize>().ok()?)?.repeat(times.parse().ok()?);
    Some(())
}

fn write_trace(name: &str, calls: &str) -> Option<()> {
    std::io::stdout().write_all(&listing::trace(name, calls.parse().ok()?)?).ok()
}

fn main() -> ExitCode {
    let words: Vec<String> = std::env::args().skip(1).collect();
    let words: Vec<&str> = words.iter().map(String::as_str).collect();
    match words.as_slice() {
        [] if measure_all() => {}
        [] => {
            eprintln!("benches: `{}` is too quick: are the hash's numbers in benches/src/filled.rs those of crates/index?", tables::SOUND_ONE_CHAIN);
            return ExitCode::FAILURE;
        }
        ["list"] => list(),
        ["count", name, place, times] if count(name, place, times).is_some() => {}
        ["trace", name, calls] if write_trace(name, calls).is_some() => {}
        _ => {
            eprintln!("usage: benches [list | count GROUP PLACE TIMES | trace NAME CALLS]");
            return ExitCode::from(2);
        }
    }
    ExitCode::SUCCESS
}
