//! Calls as text, there and back, and lines that are no calls.

use tickbutton::{shown, Call, NoCall};

const LINES: [&str; 13] = [
    "1 enter 0",
    "65535 fork 2",
    "3 exec",
    "4 exit",
    "5 check /",
    "6 look /in/fox",
    r"7 use /in/old\x20fox",
    r"8 create /a\\b",
    "9 mkdir /in",
    "10 symlink /way ../in",
    "11 link /new /old",
    r"12 unlink /\x00\xFF",
    "0 rmdir /in",
];

#[test]
fn lines_come_back() {
    for (number, line) in (1..).zip(LINES) {
        let call: Call = line.parse().unwrap_or_else(|reason| panic!("{line}: {reason}"));
        assert_eq!((call.to_string().as_str(), call.number()), (line, number));
    }
}

#[test]
fn records_come_back() {
    for line in LINES {
        let call: Call = line.parse().unwrap_or_else(|reason| panic!("{line}: {reason}"));
        if let Ok(record) = call.record() {
            assert_eq!(Call::read(&record), Ok((call, record.len())));
        }
    }
}

#[test]
fn other_lines_are_no_calls() {
    let number = |word: &str| Err(NoCall::Number(word.to_string()));
    assert_eq!("".parse::<Call>(), Err(NoCall::Missing("the process")));
    assert_eq!("fox".parse::<Call>(), number("fox"));
    assert_eq!("65536 exec".parse::<Call>(), number("65536"));
    assert_eq!("-1 exec".parse::<Call>(), number("-1"));
    assert_eq!("20".parse::<Call>(), Err(NoCall::Missing("the call")));
    assert_eq!("20 open /a".parse::<Call>(), Err(NoCall::Word("open".to_string())));
    assert_eq!("20 enter".parse::<Call>(), Err(NoCall::Missing("the user")));
    assert_eq!("20 fork".parse::<Call>(), Err(NoCall::Missing("the child")));
    assert_eq!("20 check".parse::<Call>(), Err(NoCall::Missing("the path")));
    assert_eq!("20 symlink /a".parse::<Call>(), Err(NoCall::Missing("the target")));
    assert_eq!("20 link".parse::<Call>(), Err(NoCall::Missing("the new path")));
    assert_eq!("20 link /a".parse::<Call>(), Err(NoCall::Missing("the old path")));
    assert_eq!("20 exec /a".parse::<Call>(), Err(NoCall::TooMuch("/a".to_string())));
    for path in [r"/\", r"/\a", r"/\x", r"/\x4", r"/\x4g"] {
        assert_eq!(
            format!("20 check {path}").parse::<Call>(),
            Err(NoCall::Escape(path.to_string()))
        );
    }
}

#[test]
fn every_byte_can_be_written() {
    let bytes: Vec<u8> = (0..=255).collect();
    let call: Call = format!("20 check {}", shown(&bytes)).parse().expect("a call");
    assert_eq!(call.path(), Some(&bytes[..]));
}
