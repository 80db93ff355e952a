//! The numbers and short texts of refusals stand in three places, which agree: here, in the header
//! for C, and on the page for support people. The header also has the sizes.

use std::path::Path;

use tickbutton::archive::{FIELDS, GOAL_NUMBERS};
use tickbutton::limits;
use tickbutton::tables::WORDS;
use tickbutton::Refusal;

/// The text of a file of the repository.
fn file(name: &str) -> String {
    let path = Path::new(env!("CARGO_MANIFEST_DIR")).join("../..").join(name);
    std::fs::read_to_string(&path).unwrap_or_else(|error| panic!("{}: {error}", path.display()))
}

/// The refusal's name in capitals, as the header has it.
fn constant(refusal: Refusal) -> String {
    let mut name = "TICKBUTTON".to_string();
    for letter in format!("{refusal:?}").chars() {
        if letter.is_uppercase() {
            name.push('_');
        }
        name.push(letter.to_ascii_uppercase());
    }
    name
}

#[test]
fn the_header_has_every_number_and_text() {
    let header = file("include/tickbutton.h");
    for refusal in Refusal::ALL {
        let constant = constant(refusal);
        let number = format!("    {constant} = {}", refusal.number());
        assert!(header.contains(&number), "{number}");
        let text = format!("    case {constant}: return \"{refusal}\";\n");
        assert!(header.contains(&text), "{text}");
    }
    assert_eq!(header.matches(": return \"").count(), Refusal::ALL.len() + 1);
}

#[test]
fn the_header_has_the_sizes() {
    let header = file("include/tickbutton.h");
    let sizes = [
        ("WORDS", WORDS),
        ("FIELDS", FIELDS),
        ("GOAL", GOAL_NUMBERS),
        ("LONGEST_NAME", limits::LONGEST_NAME),
        ("LONGEST_TARGET", limits::LONGEST_TARGET),
        ("LONGEST_PATH", limits::LONGEST_PATH),
        ("LONGEST_RECORD", limits::LONGEST_RECORD),
        ("MOST_LINKS", limits::MOST_LINKS),
        ("STACK", limits::STACK),
    ];
    for (name, size) in sizes {
        let one = format!("    TICKBUTTON_{name} = {size}");
        let is_there =
            |line: &str| line.strip_prefix(&one).is_some_and(|rest| !starts_with_digit(rest));
        assert!(header.lines().any(is_there), "{one}");
    }
}

/// Whether a number goes on.
fn starts_with_digit(text: &str) -> bool {
    text.starts_with(|letter: char| letter.is_ascii_digit())
}

#[test]
fn the_page_for_support_has_every_number_and_text() {
    let page = file("docs/SUPPORT.md");
    for refusal in Refusal::ALL {
        let heading = format!("\n### {}: {refusal}\n", refusal.number());
        assert!(page.contains(&heading), "{heading}");
    }
    assert_eq!(page.matches("\n### ").count(), Refusal::ALL.len());
}

#[test]
fn numbers_are_one_to_eighteen() {
    let numbers: Vec<u32> = Refusal::ALL.iter().map(|refusal| refusal.number()).collect();
    assert_eq!(numbers, (1..=18).collect::<Vec<u32>>());
    assert_eq!(Refusal::of_number(14), Some(Refusal::HeldByAnother));
    assert_eq!(Refusal::of_number(0), None);
    assert_eq!(Refusal::of_number(19), None);
}
