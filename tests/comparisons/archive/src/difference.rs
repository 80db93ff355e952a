//! Where service and reference part, and that as a story.

use std::fmt::Write;
use std::path::Path;
use std::time::{Duration, Instant};

use reference::{serve, serve_tables, text, Tables};
use tickbutton::archive;

use crate::service::same_answer;
use crate::tally::Tally;

/// Where a difference is stored, from the folder in which the command is run.
const FOLDER: &str = "target/fuzz";
/// How long calls that do not matter are looked for.
const SHRINK: Duration = Duration::from_secs(60);

/// Tables, and records to be served on them one after another.
pub struct Case {
    /// What it is about.
    pub title: String,
    /// The words before the first call.
    pub words: Vec<u32>,
    /// The records.
    pub records: Vec<Vec<u8>>,
}

/// Two answers to the same call, with the words after it.
pub struct Difference {
    /// The place of the call, from 0.
    place: usize,
    service: Told,
    reference: Told,
}

/// An answer, the bytes taken and the words afterwards.
struct Told {
    answer: String,
    taken: usize,
    words: Vec<u32>,
}

/// The reference's side: sound tables as rows, so that it is not slow, or words that are not sound.
enum Side {
    Sound(Box<Tables>, Vec<u32>),
    Unsound(Vec<u32>),
}

impl Side {
    /// The side that starts from these words.
    fn of(words: &[u32]) -> Side {
        match Tables::unpack(words) {
            Some(tables) => Side::Sound(Box::new(tables), words.to_vec()),
            None => Side::Unsound(words.to_vec()),
        }
    }

    /// Serves a record: the answer and the bytes taken.
    fn serve(&mut self, record: &[u8]) -> (reference::Answer, usize) {
        match self {
            Side::Unsound(words) => serve(words, record),
            Side::Sound(tables, words) => {
                let (answer, taken) = serve_tables(tables, record);
                if !answer.is_refused() {
                    *words = tables.pack();
                }
                (answer, taken)
            }
        }
    }

    /// The words now.
    fn words(&self) -> &[u32] {
        match self {
            Side::Sound(_, words) | Side::Unsound(words) => words,
        }
    }
}

/// The first call on which the two part, in the answer, the bytes taken or a word.
pub fn first(case: &Case, tally: &mut Tally) -> Option<Difference> {
    let mut words = case.words.clone();
    let mut side = Side::of(&words);
    for (place, record) in case.records.iter().enumerate() {
        let (answer, taken) = archive::serve(&mut words, record);
        let (expected, expected_taken) = side.serve(record);
        let same = same_answer(answer, expected) && taken == expected_taken;
        if !same || words != side.words() {
            let service = Told { answer: answer.to_string(), taken, words };
            let answer = format!("{} {}", expected.word(), expected.number());
            let words = side.words().to_vec();
            let reference = Told { answer, taken: expected_taken, words };
            return Some(Difference { place, service, reference });
        }
        tally.count(answer);
    }
    None
}

/// The difference as a story, stored beside its tables and given as text.
pub fn story(seed: u64, number: u64, case: Case, found: Difference) -> Result<String, String> {
    let (case, found) = shrunk(case, found);
    let Difference { place, service, reference } = &found;
    let mut story =
        format!("# Seed {seed}, case {number}, {}: the two part at the last call.\n", case.title);
    for (who, told) in [("service", service), ("reference", reference)] {
        let _ = writeln!(story, "# The {who} answers {}, {} bytes taken.", told.answer, told.taken);
    }
    story.push_str(&words_that_differ(&service.words, &reference.words));
    let folder = Path::new(FOLDER);
    std::fs::create_dir_all(folder).map_err(|error| error.to_string())?;
    if case.words != Tables::fresh().pack() {
        let bytes: Vec<u8> = case.words.iter().flat_map(|word| word.to_le_bytes()).collect();
        std::fs::write(folder.join("difference.words"), bytes)
            .map_err(|error| error.to_string())?;
        story.push_str("tables difference.words\n");
    }
    for record in &case.records[..=*place] {
        let _ = writeln!(story, "{}", text::line(record));
    }
    let file = folder.join("difference.story");
    std::fs::write(&file, &story).map_err(|error| error.to_string())?;
    Ok(format!("service and reference part; {} has this story:\n{story}", file.display()))
}

/// A line about the words in which the two part.
fn words_that_differ(service: &[u32], reference: &[u32]) -> String {
    let parted = |place: &usize| service.get(*place) != reference.get(*place);
    let places: Vec<usize> = (0..service.len().max(reference.len())).filter(parted).collect();
    match places.first() {
        None => "# The words afterwards are the same.\n".to_string(),
        Some(place) => format!(
            "# {} words differ afterwards, the first of them word {place}: {:08x?}, and the reference's {:08x?}.\n",
            places.len(),
            service.get(*place).copied().unwrap_or_default(),
            reference.get(*place).copied().unwrap_or_default()
        ),
    }
}

/// The case without calls that do not matter: runs of calls before the last are left out, long
/// ones first, as long as the two still part somewhere, and the rest behind that place.
fn shrunk(mut case: Case, mut found: Difference) -> (Case, Difference) {
    let began = Instant::now();
    case.records.truncate(found.place + 1);
    let mut run = case.records.len() / 2;
    while run > 0 {
        let mut start = 0;
        while start + run < case.records.len() && began.elapsed() < SHRINK {
            let mut records = case.records.clone();
            records.drain(start..start + run);
            let less = Case { title: case.title.clone(), words: case.words.clone(), records };
            match first(&less, &mut Tally::default()) {
                Some(still) => {
                    case = less;
                    case.records.truncate(still.place + 1);
                    found = still;
                }
                None => start += run,
            }
        }
        run /= 2;
    }
    (case, found)
}
