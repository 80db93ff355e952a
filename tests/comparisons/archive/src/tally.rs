//! How often each answer came.

use std::collections::BTreeMap;
use std::fmt;

use tickbutton::Answer;

/// The counts, by the answer's word and, for a refusal, its number.
#[derive(Default)]
pub struct Tally {
    counts: BTreeMap<String, usize>,
}

impl Tally {
    /// One more of this answer.
    pub fn count(&mut self, answer: Answer) {
        let name = match answer {
            Answer::Refused(_) => answer.to_string(),
            _ => answer.word().to_string(),
        };
        *self.counts.entry(name).or_default() += 1;
    }

    /// The counts of another tally too.
    pub fn add(&mut self, other: &Tally) {
        for (name, count) in &other.counts {
            *self.counts.entry(name.clone()).or_default() += count;
        }
    }

    /// Prints the counts; an error where one of the expected came fewer times than asked.
    pub fn report(&self, title: &str, expected: &[String], least: usize) -> Result<(), String> {
        println!("{title}: {:?}", self.counts);
        let rare: Vec<&String> = expected
            .iter()
            .filter(|name| self.counts.get(*name).copied().unwrap_or(0) < least)
            .collect();
        if rare.is_empty() {
            Ok(())
        } else {
            Err(format!("{title}: came fewer than {least} times: {rare:?}"))
        }
    }
}

impl fmt::Display for Tally {
    fn fmt(&self, out: &mut fmt::Formatter<'_>) -> fmt::Result {
        let counts: Vec<String> =
            self.counts.iter().map(|(name, count)| format!("{name}: {count}")).collect();
        out.write_str(&counts.join(", "))
    }
}

/// The names of these refusals.
pub fn refusals(numbers: impl IntoIterator<Item = u32>) -> Vec<String> {
    numbers.into_iter().map(|number| format!("refused {number}")).collect()
}
