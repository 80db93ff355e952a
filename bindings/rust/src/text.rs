//! Calls as lines of text: the process, the call's word, its argument and its paths, as in
//! `20 check /in/fox`. In paths a backslash is written `\\`, and a byte that is no printable ASCII,
//! or a space, as `\x` and two digits.

use std::error::Error;
use std::fmt;
use std::str::FromStr;

use crate::Call;

/// How a call is written: its word, and what its argument and its paths are.
struct Form {
    word: &'static str,
    argument: Option<&'static str>,
    paths: &'static [&'static str],
}

/// The form of a call that has paths alone.
const fn form(word: &'static str, paths: &'static [&'static str]) -> Form {
    Form { word, argument: None, paths }
}

/// The forms of the calls 1 to 13.
const FORMS: [Form; 13] = [
    Form { word: "enter", argument: Some("the user"), paths: &[] },
    Form { word: "fork", argument: Some("the child"), paths: &[] },
    form("exec", &[]),
    form("exit", &[]),
    form("check", &["the path"]),
    form("look", &["the path"]),
    form("use", &["the path"]),
    form("create", &["the path"]),
    form("mkdir", &["the path"]),
    form("symlink", &["the path", "the target"]),
    form("link", &["the new path", "the old path"]),
    form("unlink", &["the path"]),
    form("rmdir", &["the path"]),
];

/// Why a line is no call.
#[derive(Clone, Debug, PartialEq, Eq)]
pub enum NoCall {
    /// The word that should be a number of 16 bits.
    Number(String),
    /// The word that should name a call.
    Word(String),
    /// What is missing at the end of the line.
    Missing(&'static str),
    /// The first word that is too much.
    TooMuch(String),
    /// The path in which a backslash stands for nothing.
    Escape(String),
}

impl fmt::Display for NoCall {
    fn fmt(&self, out: &mut fmt::Formatter<'_>) -> fmt::Result {
        match self {
            NoCall::Number(word) => write!(out, "`{word}` is no number from 0 to 65535"),
            NoCall::Word(word) => {
                let words: Vec<&str> = FORMS.iter().map(|form| form.word).collect();
                write!(out, "`{word}` is none of the calls {}", words.join(", "))
            }
            NoCall::Missing(what) => write!(out, "{what} is missing"),
            NoCall::TooMuch(word) => write!(out, "`{word}` is too much"),
            NoCall::Escape(path) => {
                write!(
                    out,
                    "in `{path}` a backslash must be followed by another or by x and two digits"
                )
            }
        }
    }
}

impl Error for NoCall {}

/// Bytes as text in one word: printable ASCII stays, all else becomes `\x` and two digits.
///
/// ```
/// assert_eq!(tickbutton::shown(b"/in/old fox"), r"/in/old\x20fox");
/// ```
pub fn shown(bytes: &[u8]) -> String {
    let one = |byte: &u8| match byte {
        b'\\' => r"\\".to_string(),
        b'!'..=b'~' => char::from(*byte).to_string(),
        _ => format!("\\x{byte:02X}"),
    };
    bytes.iter().map(one).collect()
}

/// The bytes of a word that `shown` may have written.
fn bytes_of(word: &str) -> Result<Vec<u8>, NoCall> {
    let mut bytes = Vec::new();
    let mut rest = word.as_bytes();
    while let Some((first, behind)) = rest.split_first() {
        rest = behind;
        bytes.push(match first {
            b'\\' => escaped(&mut rest).ok_or_else(|| NoCall::Escape(word.to_string()))?,
            _ => *first,
        });
    }
    Ok(bytes)
}

/// The byte that stands behind a backslash, taken off the rest.
fn escaped(rest: &mut &[u8]) -> Option<u8> {
    match rest {
        [b'\\', behind @ ..] => {
            *rest = behind;
            Some(b'\\')
        }
        [b'x', high, low, behind @ ..] => {
            let digit = |byte: &u8| char::from(*byte).to_digit(16);
            *rest = behind;
            u8::try_from(digit(high)? * 16 + digit(low)?).ok()
        }
        _ => None,
    }
}

/// The number of a word.
fn number_of(word: &str) -> Result<u16, NoCall> {
    word.parse().map_err(|_| NoCall::Number(word.to_string()))
}

impl FromStr for Call {
    type Err = NoCall;

    /// The call of a line.
    ///
    /// ```
    /// use tickbutton::Call;
    ///
    /// let call: Call = "20 check /in/fox".parse()?;
    /// assert_eq!(call, Call::Check { process: 20, path: "/in/fox".into() });
    /// # Ok::<(), tickbutton::NoCall>(())
    /// ```
    fn from_str(line: &str) -> Result<Call, NoCall> {
        let mut words = line.split_ascii_whitespace();
        let process = number_of(words.next().ok_or(NoCall::Missing("the process"))?)?;
        let word = words.next().ok_or(NoCall::Missing("the call"))?;
        let place = FORMS.iter().position(|form| form.word == word);
        let place = place.ok_or_else(|| NoCall::Word(word.to_string()))?;
        let mut argument = 0;
        if let Some(what) = FORMS[place].argument {
            argument = number_of(words.next().ok_or(NoCall::Missing(what))?)?;
        }
        let mut paths = [Vec::new(), Vec::new()];
        for (path, what) in paths.iter_mut().zip(FORMS[place].paths) {
            *path = bytes_of(words.next().ok_or(NoCall::Missing(what))?)?;
        }
        match words.next() {
            Some(word) => Err(NoCall::TooMuch(word.to_string())),
            None => Call::of_fields(place as u32 + 1, process, argument, paths)
                .ok_or_else(|| NoCall::Word(word.to_string())),
        }
    }
}

impl fmt::Display for Call {
    /// The line of the call, which reads back as the same call where no path is empty.
    fn fmt(&self, out: &mut fmt::Formatter<'_>) -> fmt::Result {
        let fields = self.fields();
        let form = &FORMS[fields.number as usize - 1];
        write!(out, "{} {}", fields.process, form.word)?;
        if form.argument.is_some() {
            write!(out, " {}", fields.argument)?;
        }
        for path in [fields.path1, fields.path2].into_iter().take(form.paths.len()) {
            write!(out, " {}", shown(path))?;
        }
        Ok(())
    }
}
