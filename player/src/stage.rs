//! The service on which a story is played.

use std::path::Path;

use tickbutton::tables::{Tables, WORDS};
use tickbutton::{archive, Answer, Call, Refusal, Service};

use crate::story::Asked;
use crate::{granted, refused, wording};

/// The tables that the calls are served over.
pub struct Stage {
    words: Vec<u32>,
}

impl Stage {
    /// Fresh tables.
    pub fn fresh() -> Stage {
        Stage { words: Service::new().into_words() }
    }

    /// The words of a file, four bytes each, the lowest first; sound or not.
    pub fn of_file(file: &Path) -> Result<Stage, String> {
        let bytes = std::fs::read(file).map_err(|error| format!("{}: {error}", file.display()))?;
        if bytes.len() % 4 != 0 {
            return Err(format!("{}: not a whole number of words", file.display()));
        }
        let word =
            |four: &[u8]| four.iter().rev().fold(0, |word, byte| word << 8 | u32::from(*byte));
        Ok(Stage { words: bytes.chunks(4).map(word).collect() })
    }

    /// Makes one call and tells who called, what, and the verdict with its reason, and how many
    /// bytes behind the record were not looked at.
    pub fn play(&mut self, asked: &Asked) -> String {
        match asked {
            Asked::InWords(call) => self.play_call(call),
            Asked::Bytes(bytes) => match Call::read(bytes) {
                Ok((call, taken)) => self.play_call(&call) + &left_over(bytes, taken),
                Err(not_read) => self.play_bytes(bytes) + &left_over(bytes, not_read.taken),
            },
        }
    }

    /// Makes a call; one that cannot be packed is refused as packing says, after the tables were
    /// looked at.
    fn play_call(&mut self, call: &Call) -> String {
        let before = self.words.clone();
        let answer = match call.record() {
            Ok(record) => archive::serve(&mut self.words, &record).0,
            Err(refusal) => match archive::sound(&self.words) {
                Answer::Done(_) => Answer::Refused(refusal.number()),
                unsound => unsound,
            },
        };
        let (before, after) = (Tables::of(&before), Tables::of(&self.words));
        let reason = match answer.granted() {
            Err(Refusal::Unsound) => self.unsound(),
            Err(refusal) => refused::reason(&before, call, refusal),
            Ok(granted) => granted::outcome(&before, &after, call, granted),
        };
        let line = call.to_string();
        let words = line.split_once(' ').map_or("", |(_, words)| words);
        told(&wording::process(&before, call.process()), words, answer, &reason)
    }

    /// Serves bytes that are no record of a call.
    fn play_bytes(&mut self, bytes: &[u8]) -> String {
        let (answer, _) = archive::serve(&mut self.words, bytes);
        let reason = match answer.granted() {
            Err(Refusal::Unsound) => self.unsound(),
            Err(refusal) => refused::reason_of_bytes(bytes, refusal),
            Ok(_) => String::new(),
        };
        told("somebody", &wording::count(bytes.len(), "byte"), answer, &reason)
    }

    /// Why the tables are refused.
    fn unsound(&self) -> String {
        match self.words.len() {
            WORDS => Refusal::Unsound.to_string(),
            count => format!("the tables have {count} words, and {WORDS} is their size"),
        }
    }
}

/// How many bytes stand behind a record of which so many were taken; nothing is said of a record
/// that is cut off, of which none are.
fn left_over(bytes: &[u8], taken: usize) -> String {
    match bytes.len() - taken {
        rest if taken > 0 && rest > 0 => {
            format!("; not looked at: {} behind the record", wording::count(rest, "byte"))
        }
        _ => String::new(),
    }
}

/// Who called, what, and the verdict with its reason, in columns.
fn told(who: &str, call: &str, answer: Answer, reason: &str) -> String {
    format!("{who:<27}  {call:<28}  {answer}: {reason}")
}
