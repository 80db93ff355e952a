//! The edges of packing that document 01 wants run: the longest path, and one byte more.

use tickbutton::limits::{HEAD, LONGEST_PATH};
use tickbutton::{archive, Answer};

use crate::records::packed_by_reference;

/// Packs a check of each path, compares with the reference and with document 01, and prints it.
pub fn compare() -> Result<(), String> {
    one_packing(LONGEST_PATH, Answer::Done((HEAD + LONGEST_PATH) as u32))?;
    one_packing(LONGEST_PATH + 1, Answer::Refused(3))
}

fn one_packing(length: usize, expected: Answer) -> Result<(), String> {
    let path: Vec<u8> = b"/seven-b".iter().cycle().take(length - 1).chain(b"b").copied().collect();
    let mut destination = [0xEE; 600];
    let mut reference_destination = destination;
    let answer = archive::pack(5, 20, 0, &path, b"", &mut destination);
    let by_reference = packed_by_reference(5, 20, 0, [&path, b""], &mut reference_destination);
    if answer != expected || by_reference != expected || destination != reference_destination {
        return Err(format!("packing a path of {length} bytes: {answer:?}, the reference: {by_reference:?}, document 01: {expected:?}"));
    }
    println!("a path of {length} bytes given to packing: {answer}");
    Ok(())
}
