//! The program `verdicts` beside the reference's own, on traces fed from files.

use std::fs::{self, File};
use std::path::{Path, PathBuf};
use std::process::{Command, Stdio};

use crate::clock::{Group, Work};
use crate::filled;

/// Where the two programs are, from the top of the repository.
const VERDICTS: &str = "target/bin/verdicts";
const REFERENCE: &str = "target-cargo/release/reference";

fn top() -> PathBuf {
    Path::new(env!("CARGO_MANIFEST_DIR")).join("..")
}

fn scratch(name: &str) -> PathBuf {
    std::env::temp_dir().join(format!("tickbutton-{}-{name}", std::process::id()))
}

/// A trace of so many calls of the reference's mixed mode.
fn mixed(calls: usize) -> PathBuf {
    let file = scratch("mixed.trace");
    let output = File::create(&file).expect("a scratch file");
    let words = ["gen", "--mode", "mixed", "--seed", "1", "--calls", &calls.to_string()];
    let made = Command::new(top().join(REFERENCE)).args(words).stdout(output).status();
    assert!(
        made.is_ok_and(|status| status.success()),
        "the reference makes no trace: is it built?"
    );
    file
}

/// The calls that fill the tables, then so many checks.
fn full(calls: usize) -> PathBuf {
    let file = scratch("full.trace");
    let filled = filled::filled(1);
    fs::write(&file, [filled.records, filled.check.repeat(calls)].concat())
        .expect("a scratch file");
    file
}

fn program(name: &str, program: &str, words: &'static [&'static str], trace: &Path) -> Work {
    let (program, trace) = (top().join(program), trace.to_path_buf());
    Work::new(name, move || {
        Box::new(move || {
            let input = File::open(&trace).expect("the trace");
            let status =
                Command::new(&program).args(words).stdin(input).stdout(Stdio::null()).status();
            assert!(
                status.is_ok_and(|status| status.success()),
                "{} does not run",
                program.display()
            );
        })
    })
}

fn pair(name: &'static str, trace: PathBuf, calls: usize) -> Group {
    let works = vec![
        program(
            &format!("`reference verdicts`, {name}, each call"),
            REFERENCE,
            &["verdicts"],
            &trace,
        )
        .each_of(calls as u32),
        program(&format!("`verdicts`, {name}, each call"), VERDICTS, &[], &trace)
            .each_of(calls as u32),
    ];
    Group { name, rounds: 60, runs: 1, works }
}

/// A group for each trace, where both programs are built and the machine is the one that `verdicts` is compiled for.
pub fn groups() -> Vec<Group> {
    if cfg!(not(target_arch = "x86_64")) {
        eprintln!("benches: {VERDICTS} is for x86-64: the listing is left out");
        return Vec::new();
    }
    if !top().join(VERDICTS).exists() || !top().join(REFERENCE).exists() {
        eprintln!("benches: no {VERDICTS} or no {REFERENCE}: the listing is left out");
        return Vec::new();
    }
    vec![
        pair("a mixed trace", mixed(50_000), 50_000),
        pair("checks on full tables", full(20_000), 20_000),
    ]
}

/// The bytes of a trace of so many calls, by name.
pub fn trace(name: &str, calls: usize) -> Option<Vec<u8>> {
    let file = match name {
        "mixed" => mixed(calls),
        "full" => full(calls),
        _ => return None,
    };
    let bytes = fs::read(file).expect("the trace");
    tidy();
    Some(bytes)
}

/// Removes the traces.
pub fn tidy() {
    for name in ["mixed.trace", "full.trace"] {
        let _ = fs::remove_file(scratch(name));
    }
}
