//! Heading 'The thirteen calls' in text: a line for a record, and back.

use std::fmt::Write;

use crate::records::{
    assemble, number_of_name, read, row_of_name, ArgumentCell, Call, CallRow, PathCell, CALLS,
};

/// The word that starts a line of plain bytes.
const RAW: &str = "raw";

/// Writes bytes so that printable ASCII stays, but space and backslash and all else become
/// `\xHH`.
pub fn escape(bytes: &[u8]) -> String {
    let mut text = String::new();
    for byte in bytes {
        if byte.is_ascii_graphic() && *byte != b'\\' {
            text.push(char::from(*byte));
        } else {
            let _ = write!(text, "\\x{byte:02X}");
        }
    }
    text
}

/// Reads what `escape` writes, and `\\` for a backslash.
pub fn unescape(text: &str) -> Result<Vec<u8>, String> {
    let mut bytes = Vec::new();
    let mut rest = text.as_bytes();
    while let Some((first, behind)) = rest.split_first() {
        if *first != b'\\' {
            bytes.push(*first);
            rest = behind;
        } else if behind.first() == Some(&b'\\') {
            bytes.push(b'\\');
            rest = &behind[1..];
        } else {
            let digits = behind.strip_prefix(b"x").and_then(|after| after.get(..2));
            let byte = digits.and_then(byte_of_digits);
            bytes.push(byte.ok_or_else(|| format!("bad escape in {text}"))?);
            rest = &behind[3..];
        }
    }
    Ok(bytes)
}

/// The byte of two hexadecimal digits.
fn byte_of_digits(digits: &[u8]) -> Option<u8> {
    if !digits.iter().all(u8::is_ascii_hexdigit) {
        return None;
    }
    let text = std::str::from_utf8(digits).ok()?;
    u8::from_str_radix(text, 16).ok()
}

/// Bytes as hexadecimal digits.
pub fn hexadecimal(bytes: &[u8]) -> String {
    bytes.iter().map(|byte| format!("{byte:02x}")).collect()
}

/// The bytes of hexadecimal digits, two each.
fn bytes_of_hexadecimal(text: &str) -> Option<Vec<u8>> {
    if !text.len().is_multiple_of(2) {
        return None;
    }
    text.as_bytes().chunks(2).map(byte_of_digits).collect()
}

/// The line of one record's bytes: the call in words, or `raw` where reading refuses or takes
/// fewer bytes.
pub fn line(record: &[u8]) -> String {
    match read(record) {
        Ok((call, taken)) if taken == record.len() => line_of_call(&call),
        _ => format!("{RAW} {}", hexadecimal(record)),
    }
}

/// The line of an accepted call, with the cells it wants.
fn line_of_call(call: &Call) -> String {
    let row = row_of_name(call.name);
    let mut text = format!("{} {}", call.process, row.word);
    if row.argument != ArgumentCell::Blank {
        let _ = write!(text, " {}", call.argument);
    }
    for (cell, path) in [(row.path1, &call.path1), (row.path2, &call.path2)] {
        if cell != PathCell::Blank {
            let _ = write!(text, " {}", escape(path));
        }
    }
    text
}

/// The bytes of one line; nothing for a blank or comment line. Values are judged only as far
/// as they must fit their fields, so that records to be refused can be written too.
pub fn record(line: &str) -> Result<Option<Vec<u8>>, String> {
    let line = line.trim();
    if line.is_empty() || line.starts_with('#') {
        return Ok(None);
    }
    let mut words = line.split_ascii_whitespace();
    let first = words.next().unwrap_or_default();
    let bytes = if first == RAW { raw_bytes(words)? } else { call_bytes(first, words)? };
    Ok(Some(bytes))
}

/// The bytes of the digits behind `raw`.
fn raw_bytes<'line>(words: impl Iterator<Item = &'line str>) -> Result<Vec<u8>, String> {
    let digits: String = words.collect();
    bytes_of_hexadecimal(&digits).ok_or_else(|| "bad hexadecimal digits".to_string())
}

/// A number of 16 bits.
pub fn small_number(text: &str) -> Result<u16, String> {
    text.parse().map_err(|_| format!("not a number of 16 bits: {text}"))
}

/// The row of a call's word.
pub fn row_of_word(word: &str) -> Result<&'static CallRow, String> {
    let row = CALLS.iter().find(|row| row.word == word);
    row.ok_or_else(|| format!("no such call: {word}"))
}

/// The bytes of a line that starts with a process and a call's word.
fn call_bytes<'line>(
    first: &str,
    mut words: impl Iterator<Item = &'line str>,
) -> Result<Vec<u8>, String> {
    let process = small_number(first)?;
    let row = row_of_word(words.next().ok_or("call is missing")?)?;
    let mut argument = 0;
    if row.argument != ArgumentCell::Blank {
        argument = small_number(words.next().ok_or("argument is missing")?)?;
    }
    let mut paths = [Vec::new(), Vec::new()];
    for (cell, path) in [row.path1, row.path2].into_iter().zip(&mut paths) {
        if cell != PathCell::Blank {
            *path = unescape(words.next().ok_or("path is missing")?)?;
        }
    }
    if let Some(word) = words.next() {
        return Err(format!("too much in the line: {word}"));
    }
    let [path1, path2] = &paths;
    assemble(number_of_name(row.name), process, argument, path1, path2)
        .ok_or_else(|| "path above 255 bytes".to_string())
}
