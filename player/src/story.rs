//! The lines of a story: a call in words (`20 check /in/fox`), the bytes of a record (`raw 2800a0`),
//! the file of stored tables to go on from (`tables FILE`), or a comment after `#`.

use std::path::Path;

use tickbutton::Call;

/// What a line asks for.
pub enum Step {
    /// Nothing: a comment or an empty line, shown as it is.
    Told(String),
    /// To go on from the words of a file, named from the story's folder; and the line's number.
    Tables(String, usize),
    /// A call.
    Call(Asked),
}

/// A call as it stands in the story.
pub enum Asked {
    /// In words.
    InWords(Call),
    /// As bytes.
    Bytes(Vec<u8>),
}

/// A line that cannot be played: its number and why.
pub type Bad = (usize, String);

/// What all lines of a story ask for, or all lines that ask for nothing that can be played.
pub fn steps(text: &[u8]) -> Result<Vec<Step>, Vec<Bad>> {
    let mut steps = Vec::new();
    let mut bad = Vec::new();
    let text = text.strip_suffix(b"\n").unwrap_or(text);
    for (number, line) in (1..).zip(text.split(|byte| *byte == b'\n')) {
        let read = std::str::from_utf8(line).map_err(|_| "the line is not UTF-8".to_string());
        match read.and_then(|line| step(number, line)) {
            Ok(step) => steps.push(step),
            Err(reason) => bad.push((number, reason)),
        }
    }
    if bad.is_empty() {
        Ok(steps)
    } else {
        Err(bad)
    }
}

/// The message about bad lines, one line for each.
pub fn report(file: &Path, bad: &[Bad]) -> String {
    let one = |(number, reason): &Bad| format!("{}:{number}: {reason}", file.display());
    bad.iter().map(one).collect::<Vec<String>>().join("\n")
}

/// What one line asks for.
fn step(number: usize, line: &str) -> Result<Step, String> {
    let line = line.trim();
    if line.is_empty() || line.starts_with('#') {
        return Ok(Step::Told(line.to_string()));
    }
    match line.split_once(char::is_whitespace).unwrap_or((line, "")) {
        ("tables", "") => Err("behind `tables` stands the name of a file".to_string()),
        ("tables", file) => Ok(Step::Tables(file.trim().to_string(), number)),
        ("raw", digits) => Ok(Step::Call(Asked::Bytes(bytes(digits)?))),
        _ => match line.parse() {
            Ok(call) => Ok(Step::Call(Asked::InWords(call))),
            Err(reason) => Err(reason.to_string()),
        },
    }
}

/// The bytes of hexadecimal digits, two each.
fn bytes(digits: &str) -> Result<Vec<u8>, String> {
    let digits: Vec<char> = digits.chars().filter(|digit| !digit.is_whitespace()).collect();
    let byte = |two: &[char]| match two {
        [high, low] => u8::try_from(high.to_digit(16)? * 16 + low.to_digit(16)?).ok(),
        _ => None,
    };
    let bytes: Option<Vec<u8>> = digits.chunks(2).map(byte).collect();
    bytes.ok_or_else(|| "behind `raw` stand hexadecimal digits, two for each byte".to_string())
}
