//! Heading 'Numbers given back': every reason from 1 to 18, and the order of the first tests.

mod common;

use common::{played, record, three_users, World};
use reference::records::{assemble, pack, read, Header, CALLS};
use reference::{hash, serve, Answer, Tables, WORDS};

#[test]
fn reason_1() {
    let enter = record("enter", 10, 0, b"", b"");
    for length in [0, 1, WORDS - 1, WORDS + 1] {
        let mut words = vec![0; length];
        assert_eq!(serve(&mut words, &enter), (Answer::Refused(1), 7));
        assert!(words.iter().all(|word| *word == 0));
    }
    let mut words = vec![0; WORDS];
    assert_eq!(serve(&mut words, &enter), (Answer::Refused(1), 7));
    let mut words = Tables::fresh().pack();
    assert_eq!(words.iter().filter(|word| **word != 0).count(), 1);
    assert_eq!(words[2560], 0x8000_0000);
    words[WORDS - 1] = 1;
    let before = words.clone();
    assert_eq!(serve(&mut words, &enter), (Answer::Refused(1), 7));
    assert_eq!(words, before);
}

#[test]
fn reason_17_comes_before_1_and_1_before_2() {
    let mut words = vec![0; 3];
    let check = record("check", 10, 0, b"/in", b"");
    for length in 0..check.len() {
        assert_eq!(serve(&mut words, &check[..length]), (Answer::Refused(17), 0));
    }
    let bad = assemble(0, 0, 0, b"abc", b"").expect("short");
    assert_eq!(serve(&mut words, &bad), (Answer::Refused(1), 10));
    assert_eq!(serve(&mut words, &bad[..7]), (Answer::Refused(17), 0));
    let bad_path = record("check", 10, 0, b"abc", b"");
    assert_eq!(serve(&mut words, &bad_path), (Answer::Refused(1), 10));
}

/// The record with one field of its header changed.
fn with(record: &[u8], change: fn(&mut Header)) -> Vec<u8> {
    let mut header = Header::read(record).expect("a header");
    change(&mut header);
    [&header.bytes()[..], &record[7..]].concat()
}

#[test]
fn reason_2() {
    let mut world = three_users();
    let check = record("check", 20, 0, b"/in", b"");
    for call in [0, 14, 15, 16, 30, 31] {
        let bytes = assemble(call, 20, 0, b"", b"").expect("short");
        assert_eq!(world.serve(&bytes), (Answer::Refused(2), 7));
        let bytes = assemble(call, 20, 0, b"/in", b"x").expect("short");
        assert_eq!(world.serve(&bytes), (Answer::Refused(2), 11));
    }
    assert_eq!(world.serve(&with(&check, |header| header.process = 0)).0, Answer::Refused(2));
    assert_eq!(world.serve(&with(&check, |header| header.argument = 1)).0, Answer::Refused(2));
    assert_eq!(world.serve(&with(&check, |header| header.zero_bits = 1)).0, Answer::Refused(2));
    assert_eq!(world.serve(&with(&check, |header| header.zero_bits = 4)).0, Answer::Refused(2));
    assert_eq!(world.serve(&record("fork", 20, 0, b"", b"")).0, Answer::Refused(2));
    assert_eq!(world.serve(&record("exec", 20, 0, b"hello", b"")), (Answer::Refused(2), 12));
    assert_eq!(world.serve(&record("check", 20, 0, b"bad", b"/x")), (Answer::Refused(2), 12));
}

#[test]
fn reason_2_for_every_blank_cell_and_3_for_every_wanted_one() {
    use reference::records::{ArgumentCell, PathCell};
    for (number, row) in (1..).zip(&CALLS) {
        let argument = u16::from(row.argument != ArgumentCell::Blank);
        let good = |cell: PathCell| if cell == PathCell::Blank { &b""[..] } else { b"/a" };
        let bad =
            |cell: PathCell| if cell == PathCell::Blank { (&b"/a"[..], 2) } else { (&b""[..], 3) };
        let answer = |argument: u16, path1: &[u8], path2: &[u8]| {
            read(&assemble(number, 9, argument, path1, path2).expect("short")).map(|_| ())
        };
        let (path1, path2) = (good(row.path1), good(row.path2));
        assert_eq!(answer(argument, path1, path2), Ok(()), "{}", row.word);
        let (bad1, number1) = bad(row.path1);
        let length1 = 7 + bad1.len() + path2.len();
        assert_eq!(answer(argument, bad1, path2), Err((number1, length1)), "{}", row.word);
        let (bad2, number2) = bad(row.path2);
        let length2 = 7 + path1.len() + bad2.len();
        assert_eq!(answer(argument, path1, bad2), Err((number2, length2)), "{}", row.word);
        if row.argument == ArgumentCell::Blank {
            assert_eq!(answer(1, path1, path2).map_err(|refused| refused.0), Err(2));
        }
    }
}

#[test]
fn reason_3() {
    let mut world = three_users();
    let bad: [&[u8]; 14] = [
        b"",
        b"in",
        b"//",
        b"/in/",
        b"/in//fox",
        b"/.",
        b"/..",
        b"/in/.",
        b"/../in",
        b"/a\0",
        b"\0",
        b"/\0",
        b"/fifteen-bytes--",
        b" /in",
    ];
    for path in bad {
        let taken = 7 + path.len();
        assert_eq!(world.serve(&record("check", 20, 0, path, b"")), (Answer::Refused(3), taken));
        let link = record("link", 20, 0, b"/new", path);
        assert_eq!(world.serve(&link), (Answer::Refused(3), taken + 4));
    }
    for path in [&b"/..."[..], b"/.a", b"/a.", b"/\xFF\x01 "] {
        assert_eq!(world.serve(&record("check", 20, 0, path, b"")).0, Answer::Held(0));
    }
    for target in [&b""[..], b"//", b"a/", b"a//b", b".", b"..", b"a/..", b"fifteen-bytes--"] {
        let bytes = record("symlink", 20, 0, b"/l", target);
        assert_eq!(world.serve(&bytes).0, Answer::Refused(3));
    }
}

#[test]
fn reasons_4_to_6() {
    let mut world = three_users();
    for row in &CALLS[1..] {
        let (path1, path2) = match row.word {
            "fork" | "exec" | "exit" => (&b""[..], &b""[..]),
            "symlink" | "link" => (&b"/in"[..], &b"/in"[..]),
            _ => (&b"/in"[..], &b""[..]),
        };
        let argument = u16::from(row.word == "fork") * 20;
        let bytes = record(row.word, 99, argument, path1, path2);
        assert_eq!(world.serve(&bytes).0, Answer::Refused(4), "{}", row.word);
    }
    world.unchanged("20 enter 500 -> refused 5\n20 fork 30 -> refused 5");
    for number in 100..161 {
        world.play(&format!("{number} enter 1 -> done {number}"));
    }
    world.unchanged("99 enter 0 -> refused 6\n20 fork 99 -> refused 6\n20 enter 0 -> refused 5");
}

#[test]
fn reasons_7_to_16() {
    let mut world = three_users();
    world.play(
        "10 symlink /ring /ring -> done 3
         10 create /in/file -> done 4
         10 exec -> done 10
         20 check /in/held -> held 0
         30 check /ring -> refused 7
         30 check /absent/x -> refused 8
         30 check /in/file/x -> refused 9
         30 use /absent -> refused 10
         30 unlink /absent -> refused 10
         30 rmdir /absent -> refused 10
         30 link /x /absent -> refused 10
         30 create /in/file -> refused 11
         30 unlink /in -> refused 12
         30 rmdir /in/file -> refused 12
         30 link /x /in -> refused 12
         30 rmdir /in -> refused 13
         30 create /in/held -> refused 14",
    );
    fifteen_and_sixteen(&mut world);
}

/// Fills the nodes (15) and then the holds (16).
fn fifteen_and_sixteen(world: &mut World) {
    for number in 5..=256 {
        world.play(&format!("10 create /n{number} -> done {number}\n10 exec -> done 10"));
    }
    world.unchanged("30 create /x -> refused 15\n30 symlink /x y -> refused 15");
    for number in 0..255 {
        world.play(&format!("30 look /m{number} -> held 0"));
    }
    world.unchanged("30 look /m -> refused 16\n30 unlink /n7 -> refused 16");
    world.unchanged("30 link /x /n7 -> refused 16\n30 create /x -> refused 15");
}

#[test]
fn reason_18_and_the_order_of_packing() {
    let mut destination = [0xEE; 9];
    assert_eq!(pack(5, 20, 0, b"/in", b"", &mut destination), Err(18));
    assert_eq!(pack(5, 20, 0, b"in", b"", &mut destination), Err(3));
    assert_eq!(pack(5, 0, 0, b"in", b"", &mut destination), Err(2));
    assert_eq!(pack(1, 20, 0, b"", b"", &mut destination[..6]), Err(18));
    for call in [0, 14, 31, 32, 37, 1 << 32 | 5, u64::MAX] {
        assert_eq!(pack(call, 20, 0, b"/in", b"", &mut destination), Err(2));
    }
    assert_eq!(pack(3, 20, 0, &[b'a'; 300], b"", &mut destination), Err(2));
    assert_eq!(pack(5, 20, 0, &[b'a'; 300], b"/x", &mut destination), Err(2));
    assert_eq!(pack(10, 20, 0, b"/x", &[b'a'; 300], &mut destination), Err(3));
    assert_eq!(pack(2, 20, 0, b"", b"", &mut destination), Err(2));
    assert_eq!(destination, [0xEE; 9]);
    assert_eq!(pack(1, 20, 7, b"", b"", &mut destination), Ok(7));
    assert_eq!(destination[7..], [0xEE, 0xEE]);
}

#[test]
fn bytes_behind_a_record_do_not_count() {
    let mut world = played("");
    let bytes = [record("enter", 10, 0, b"", b""), vec![0xFF; 40]].concat();
    assert_eq!(world.serve(&bytes), (Answer::Done(10), 7));
}

#[test]
fn hash_of_words() {
    assert_eq!(hash(&[]), 0xCBF2_9CE4_8422_2325);
    assert_eq!(hash(&[u32::from_le_bytes(*b"foob")]), 0xDD12_0E79_0C25_12AF);
}
