//! The commands `asm` and `dis` there and back, and the program itself.

use std::io::{Read, Write};
use std::process::{Command, Output, Stdio};

use reference::generate::{Random, Trace, MODES};
use reference::listing::next_record;
use reference::text::{escape, line, record, unescape};

/// Runs the program with these words and this standard input.
fn program(words: &[&str], input: &[u8]) -> Output {
    let mut child = Command::new(env!("CARGO_BIN_EXE_reference"))
        .args(words)
        .stdin(Stdio::piped())
        .stdout(Stdio::piped())
        .stderr(Stdio::piped())
        .spawn()
        .expect("started");
    let mut stdin = child.stdin.take().expect("piped");
    let bytes = input.to_vec();
    let writer = std::thread::spawn(move || {
        let _ = stdin.write_all(&bytes);
    });
    let output = child.wait_with_output().expect("ended");
    writer.join().expect("written");
    output
}

/// The standard output of a program that must succeed.
fn printed(words: &[&str], input: &[u8]) -> Vec<u8> {
    let output = program(words, input);
    let message = String::from_utf8_lossy(&output.stderr).into_owned();
    assert!(output.status.success(), "{words:?}: {message}");
    output.stdout
}

#[test]
fn lines_there_and_back() {
    for text in [
        "10 enter 0",
        "20 fork 21",
        "30 exec",
        "20 check /in/fox",
        "30 symlink /in/link target",
        "30 link /new /old",
        "30 create /a\\x20b\\x5C\\xFF",
        "raw 00",
        "raw 00000000000000",
    ] {
        let bytes = record(text).expect("read").expect("a record");
        assert_eq!(line(&bytes), text);
    }
    assert_eq!(record("  # a comment"), Ok(None));
    assert_eq!(record("   "), Ok(None));
    assert_eq!(unescape("a\\\\b\\x5c"), Ok(b"a\\b\\".to_vec()));
    for bad in ["10", "10 nothing", "x exec", "70000 exec", "10 check", "10 exec more"] {
        assert!(record(bad).is_err(), "{bad}");
    }
    for bad in ["10 enter", "10 enter x", "raw 0", "raw 0g", "10 check /\\x0", "10 check /\\y"] {
        assert!(record(bad).is_err(), "{bad}");
    }
    let all: Vec<u8> = (0..=255).collect();
    assert_eq!(unescape(&escape(&all)), Ok(all));
}

#[test]
fn traces_there_and_back() {
    for (mode, name) in MODES {
        let mut trace = Trace::new(mode, 5);
        let mut bytes: Vec<u8> = (0..3000).flat_map(|_| trace.next_record()).collect();
        bytes.extend(trace.last_record());
        let text = printed(&["dis"], &bytes);
        assert_eq!(printed(&["asm"], &text), bytes, "{name}");
    }
}

#[test]
fn random_bytes_there_and_back() {
    let mut random = Random::new(6);
    for _ in 0..2000 {
        let count = random.below(900);
        let bytes: Vec<u8> = (0..count).map(|_| random.below(256) as u8).collect();
        let mut input = &bytes[..];
        let mut back = Vec::new();
        loop {
            let piece = next_record(&mut input).expect("no failure");
            if piece.is_empty() {
                break;
            }
            back.extend(record(&line(&piece)).expect("read").expect("a record"));
        }
        assert_eq!(back, bytes);
    }
}

#[test]
fn usage_and_failures() {
    for words in [
        &[][..],
        &["unknown"],
        &["verdicts", "more"],
        &["gen", "--seed", "1", "--calls", "2", "--mode", "none"],
        &["gen", "--seed", "1", "--calls", "2"],
        &["gen", "--calls", "2", "--mode", "mixed"],
        &["tables", "--seed", "1", "--count", "1", "--rule", "slice-length"],
        &["tables", "--seed", "1", "--count", "1", "--unsound", "--bits", "3"],
        &["pack", "5"],
    ] {
        let output = program(words, b"");
        assert_eq!(output.status.code(), Some(2), "{words:?}");
        assert!(String::from_utf8_lossy(&output.stderr).contains("usage"), "{words:?}");
    }
    let output = program(&["digest", "--words", "/does/not/exist"], b"");
    assert_eq!(output.status.code(), Some(1));
    let output = program(&["asm"], b"10 exec\n\n10 wrong\n");
    assert_eq!(output.status.code(), Some(1));
    assert!(String::from_utf8_lossy(&output.stderr).contains("line 3"));
}

#[test]
fn closed_output_is_no_panic() {
    let mut child = Command::new(env!("CARGO_BIN_EXE_reference"))
        .args(["gen", "--seed", "1", "--calls", "200000", "--mode", "mixed"])
        .stdout(Stdio::piped())
        .stderr(Stdio::piped())
        .spawn()
        .expect("started");
    drop(child.stdout.take());
    let mut message = String::new();
    child.stderr.take().expect("piped").read_to_string(&mut message).expect("text");
    assert_eq!(child.wait().expect("ended").code(), Some(1));
    assert!(message.starts_with("reference: ") && !message.contains("panic"), "{message}");
}

#[test]
fn packing_by_the_program() {
    let packed = printed(&["pack", "check", "20", "0", "/in/fox", "", "15"], b"");
    assert_eq!(packed, b"packed 14 2800a0000038002f696e2f666f78ee\n");
    assert_eq!(printed(&["pack", "5", "20", "0", "/in/fox", "", "13"], b""), b"refused 18\n");
    assert_eq!(printed(&["pack", "37", "20", "0", "/in/fox", "", "99"], b""), b"refused 2\n");
}

#[test]
fn digests_go_on_after_refusals_and_stop_after_17() {
    let records = printed(&["asm"], b"10 enter 0\n10 check bad\n10 exec\nraw 0000\n");
    let text = String::from_utf8(printed(&["digest"], &records)).expect("text");
    let starts: Vec<&str> = text.lines().map(|line| &line[..line.len() - 17]).collect();
    assert_eq!(starts, ["1 done 10 7", "2 refused 3 10", "3 done 10 7", "4 refused 17 0"]);
    let hashes: Vec<&str> = text.lines().map(|line| &line[line.len() - 16..]).collect();
    assert!(hashes.iter().all(|hash| *hash == hashes[0]));
}

#[test]
fn equal_seeds_give_equal_traces_and_tables() {
    let words = ["gen", "--seed", "9", "--calls", "500", "--mode", "damaged"];
    assert_eq!(printed(&words, b""), printed(&words, b""));
    let words = ["tables", "--seed", "9", "--count", "3", "--unsound"];
    let tables = printed(&words, b"");
    assert_eq!(tables.len(), 3 * 8512 * 4);
    assert_eq!(tables, printed(&words, b""));
    assert_eq!(printed(&["tables", "--list"], b"").split(|byte| *byte == b'\n').count(), 30);
}
