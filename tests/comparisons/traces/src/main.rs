//! Writes a crate of claims: seeded random traces with what the reference answers, for the
//! model to compute. `traces FOLDER` fills FOLDER/crates/traces and prints how often each
//! answer came; it fails where one did not come at all.

mod choose;
mod claim;
mod packings;

use std::fs;
use std::path::Path;
use std::process::ExitCode;

use claim::Claim;
use reference::Answer;

const PLAYING: &str = include_str!("playing.txt");

fn main() -> ExitCode {
    let words: Vec<String> = std::env::args().collect();
    let [_, folder] = words.as_slice() else {
        eprintln!("usage: traces FOLDER");
        return ExitCode::from(2);
    };
    match write(Path::new(folder)) {
        Ok(true) => ExitCode::SUCCESS,
        Ok(false) => ExitCode::FAILURE,
        Err(error) => {
            eprintln!("traces: {error}");
            ExitCode::FAILURE
        }
    }
}

/// Writes the crate; false where an answer is missing among those claimed.
fn write(folder: &Path) -> std::io::Result<bool> {
    let home = folder.join("crates/traces");
    for part in ["src", "specs", "proofs"] {
        fs::create_dir_all(home.join(part))?;
    }
    fs::create_dir_all(folder.join("stories"))?;
    fs::write(
        home.join("src/lib.rt"),
        "#![tactic(auto)]\n// No code: the claims stand in proofs/.\n",
    )?;
    fs::write(home.join("specs/Lib.antt"), "")?;
    fs::write(home.join("proofs/Playing.antt"), PLAYING)?;
    let (packings, mut counts) = packings::module();
    fs::write(home.join("proofs/Packings.antt"), packings)?;
    let claims = choose::claims();
    let mut modules = String::from("pub mod Playing\npub mod Packings\n");
    for (place, claim) in claims.iter().enumerate() {
        modules.push_str(&format!("pub mod Trace{place}\n"));
        write_claim(folder, place, claim)?;
    }
    fs::write(home.join("proofs/Lib.antt"), modules)?;
    let answers: Vec<&Answer> = claims.iter().flat_map(Claim::answers).collect();
    for answer in &answers {
        *counts.entry(name_of(answer)).or_default() += 1;
    }
    let calls = answers.len();
    println!("{calls} calls; answers: {counts:?}");
    let missing: Vec<String> =
        expected().into_iter().filter(|name| !counts.contains_key(name)).collect();
    if !missing.is_empty() {
        println!("answers that did not come: {missing:?}");
    }
    Ok(missing.is_empty() && calls >= 400)
}

/// Writes the claim of a place: its module, and the story with its words.
fn write_claim(folder: &Path, place: usize, claim: &Claim) -> std::io::Result<()> {
    let stories = folder.join("stories");
    let words_file = format!("Trace{place}.words");
    fs::write(folder.join(format!("crates/traces/proofs/Trace{place}.antt")), claim.module())?;
    fs::write(stories.join(format!("Trace{place}.story")), claim.story(&words_file))?;
    fs::write(stories.join(words_file), claim.stored_words())
}

/// Under which name an answer is counted.
fn name_of(answer: &Answer) -> String {
    match answer {
        Answer::Refused(number) => format!("refused {number}"),
        _ => answer.word().to_string(),
    }
}

fn expected() -> Vec<String> {
    let words = ["held", "seen", "done", "packed"].map(String::from);
    words.into_iter().chain((1..=18).map(|number| format!("refused {number}"))).collect()
}
