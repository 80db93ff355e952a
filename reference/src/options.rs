//! The options of a command, as `--name value` or `--name`.

use std::collections::HashMap;

use crate::commands::Failure;

/// Options by name; one without a value has an empty one.
pub struct Options {
    values: HashMap<String, String>,
}

impl Options {
    /// Takes options apart; `with_value` and `without` name those that may come.
    pub fn read(
        words: &[String],
        with_value: &[&str],
        without: &[&str],
    ) -> Result<Options, Failure> {
        let mut values = HashMap::new();
        let mut rest = words.iter();
        while let Some(word) = rest.next() {
            let value = if with_value.contains(&word.as_str()) {
                let value = rest.next();
                value.ok_or_else(|| Failure::Usage(format!("{word} needs a value")))?.clone()
            } else if without.contains(&word.as_str()) {
                String::new()
            } else {
                return Err(Failure::Usage(format!("unknown argument {word}")));
            };
            if values.insert(word.clone(), value).is_some() {
                return Err(Failure::Usage(format!("{word} comes twice")));
            }
        }
        Ok(Options { values })
    }

    /// The value of an option that may be left out.
    pub fn text(&self, name: &str) -> Option<&str> {
        self.values.get(name).map(String::as_str)
    }

    /// How many of these options came.
    pub fn count(&self, names: &[&str]) -> usize {
        names.iter().filter(|name| self.values.contains_key(**name)).count()
    }

    /// The number of an option that must come.
    pub fn number(&self, name: &str) -> Result<u64, Failure> {
        let text = self.text(name).ok_or_else(|| Failure::Usage(format!("{name} is missing")))?;
        text.parse().map_err(|_| Failure::Usage(format!("{name} needs a number")))
    }
}
