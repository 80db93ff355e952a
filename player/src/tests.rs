//! Random traces of the reference: lines come back as their records, and every verdict gets a reason
//! of its own, so that the way that the player follows is the one that the service took. And what is
//! told of single lines.

use std::path::Path;

use reference::generate::{sound_tables, Random, Trace, MODES};
use tickbutton::tables::Tables;
use tickbutton::{archive, Answer, Call, Refusal};

use crate::story::{self, Asked, Step};
use crate::{granted, refused};

const CALLS: usize = 1_500;

/// The record of a line that the reference wrote.
fn record_of(line: &str) -> Vec<u8> {
    match story::steps(line.as_bytes()).as_deref() {
        Ok([Step::Call(Asked::InWords(call))]) => call.record().expect("the line of a record"),
        Ok([Step::Call(Asked::Bytes(bytes))]) => bytes.clone(),
        _ => panic!("no call: {line}"),
    }
}

/// The traces of every mode, from fresh tables and from random sound ones.
fn traces() -> impl Iterator<Item = Trace> {
    (0..MODES.len() as u64 * 2).map(|seed| {
        let mut trace = Trace::new(MODES[seed as usize / 2].0, seed);
        if seed % 2 == 1 {
            trace.tables = sound_tables(&mut Random::new(seed));
        }
        trace
    })
}

#[test]
fn lines_come_back_as_their_records() {
    for mut trace in traces() {
        for _ in 0..CALLS {
            let record = trace.next_record();
            assert_eq!(record_of(&reference::text::line(&record)), record);
        }
    }
}

/// Serves the traces, and gives each record with its answer and the reason that is told.
fn for_each_verdict(mut look: impl FnMut(&[u8], Answer, &str)) {
    for mut trace in traces() {
        let mut words = trace.tables.pack();
        for _ in 0..CALLS {
            let record = trace.next_record();
            let before = words.clone();
            let (answer, _) = archive::serve(&mut words, &record);
            let told = reason(&Tables::of(&before), &Tables::of(&words), &record, answer);
            look(&record, answer, &told);
        }
    }
}

#[test]
fn every_verdict_has_a_reason_of_its_own() {
    for_each_verdict(|record, answer, told| {
        let line = reference::text::line(record);
        assert!(fits(answer, told), "{line}: {answer}: {told}");
    });
}

#[test]
fn a_seen_name_has_a_holder() {
    for_each_verdict(|_, answer, told| {
        let is_seen = matches!(answer, Answer::Seen(_));
        assert!(!is_seen || told.contains("holds it and may change it"), "{told}");
    });
}

/// Whether the reason is one for this answer, and not the short text that is told of any call.
fn fits(answer: Answer, told: &str) -> bool {
    let Err(refusal) = answer.granted() else {
        return !told.is_empty();
    };
    let part = match refusal {
        Refusal::NotListed => "is not listed; it must enter",
        Refusal::AlreadyListed => "is listed already",
        Refusal::NoProcessRow => "places for processes are taken",
        Refusal::NinthLink => "after 8 links comes another",
        Refusal::NameMissing | Refusal::Absent => "there is no ",
        Refusal::NameIsFile => "so nothing is inside it",
        Refusal::Present => " is there ",
        Refusal::NotEmpty => " in /",
        Refusal::HeldByAnother => " holds /",
        Refusal::NoNameRow => " are taken",
        Refusal::NoHoldRow => "new hold",
        _ => "",
    };
    told.contains(part) && told != refusal.text()
}

/// The reason that is told of an answer.
fn reason(before: &Tables<'_>, after: &Tables<'_>, record: &[u8], answer: Answer) -> String {
    match (Call::read(record), answer.granted()) {
        (Ok((call, _)), Ok(granted)) => granted::outcome(before, after, &call, granted),
        (Ok((call, _)), Err(refusal)) => refused::reason(before, &call, refusal),
        (Err(_), Err(refusal)) => refused::reason_of_bytes(record, refusal),
        (Err(_), Ok(_)) => panic!("a granted call that cannot be read"),
    }
}

/// What is told of the lines of a story, without the columns before the verdict.
fn verdicts(lines: &str) -> Vec<String> {
    let steps = story::steps(lines.as_bytes()).unwrap_or_else(|bad| panic!("{bad:?}"));
    let told = crate::tell(&steps, Path::new("")).unwrap_or_else(|bad| panic!("{bad:?}"));
    let verdict = |line: &str| line.get(65..).unwrap_or_default().to_string();
    told.lines().map(verdict).collect()
}

#[test]
fn bytes_behind_a_record_are_told() {
    let told = verdicts("raw 2800a000000800 2f\nraw 2800a000000800 2f 2f2f\nraw 2800");
    assert!(!told[0].contains("not looked at"), "{told:?}");
    assert!(told[1].ends_with("; not looked at: 2 bytes behind the record"), "{told:?}");
    assert!(told[2].starts_with("refused 17") && !told[2].contains("not looked at"), "{told:?}");
}

#[test]
fn a_ring_is_told_once() {
    let told = verdicts("1 enter 0\n1 symlink /a b\n1 symlink /b a\n1 check /a");
    assert_eq!(
        told[3],
        "refused 7: the path leads through /a, /b, and after 8 links comes another, /a"
    );
}

#[test]
fn what_is_left_of_a_removed_name_is_told() {
    let told = verdicts("1 enter 0\n1 create /a\n1 link /b /a\n1 unlink /a\n1 unlink /b");
    assert!(told[3].contains("/a is gone, and what it led to keeps 1 name, and stays so"));
    assert!(told[4].contains("/b is gone, and stays so"));
}

#[test]
fn lines_that_cannot_be_played_are_told_by_number() {
    let bad = |lines: &str| story::steps(lines.as_bytes()).err().unwrap_or_default();
    let reasons = bad("1 enter 0\ntables\n1 symlink /a\nraw 2");
    let numbers: Vec<usize> = reasons.iter().map(|(number, _)| *number).collect();
    assert_eq!(numbers, [2, 3, 4]);
    assert_eq!(reasons[0].1, "behind `tables` stands the name of a file");
    assert_eq!(reasons[1].1, "the target is missing");
    let steps = story::steps(b"1 enter 0\n\ntables none.words").unwrap_or_default();
    let missing = crate::tell(&steps, Path::new("/no folder")).err();
    assert_eq!(missing.map(|(line, _)| line), Some(3));
}
