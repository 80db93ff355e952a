//! Heading 'At the edges', proved and run-only cases, and 'The listing'.

mod common;

use common::{played, record, three_users, World};
use reference::listing::verdicts;
use reference::records::{pack, read, CallName};
use reference::tables::{free_rows, used_rows};
use reference::Answer;

/// The listing of these bytes.
fn listing(mut bytes: &[u8]) -> String {
    let mut output = Vec::new();
    verdicts(&mut bytes, &mut output).expect("no failure");
    String::from_utf8(output).expect("text")
}

/// The twelve records of the listing.
fn twelve() -> Vec<u8> {
    let lines = "10 enter 0\n10 mkdir /in\n10 exec\n20 enter 500\n30 enter 600\n20 check /in/fox
        30 create /in/fox\n30 check /in/fox\n20 create /in/fox\n30 unlink /in/fox\n20 exit
        30 unlink /in/fox";
    lines.lines().flat_map(|line| reference::text::record(line).unwrap().unwrap()).collect()
}

#[test]
fn twelve_lines() {
    let wanted = "1 done 10\n2 done 2\n3 done 10\n4 done 20\n5 done 30\n6 held 0\n7 refused 14\n\
        8 seen 0\n9 done 3\n10 refused 14\n11 done 20\n12 done 3\n";
    assert_eq!(listing(&twelve()), wanted);
}

#[test]
fn listing_ends() {
    assert_eq!(listing(b""), "");
    for left in 1..7 {
        let bytes = [record("enter", 10, 0, b"", b""), vec![0; left]].concat();
        assert_eq!(listing(&bytes), "1 done 10\n2 refused 17\n");
    }
    let bytes = [record("check", 10, 0, b"bad", b""), record("enter", 10, 0, b"x", b"")].concat();
    assert_eq!(listing(&bytes), "1 refused 3\n2 refused 2\n");
    let cut = &twelve()[..twelve().len() - 1];
    assert!(listing(cut).ends_with("11 done 20\n12 refused 17\n"));
}

#[test]
fn example_record() {
    let bytes =
        [0x28, 0x00, 0xA0, 0x00, 0x00, 0x38, 0x00, 0x2F, 0x69, 0x6E, 0x2F, 0x66, 0x6F, 0x78];
    let (call, taken) = read(&bytes).expect("accepted");
    assert_eq!((call.name, call.process, call.argument, taken), (CallName::Check, 20, 0, 14));
    assert_eq!((call.path1.as_slice(), call.path2.as_slice()), (&b"/in/fox"[..], &b""[..]));
    let mut destination = [0xEE; 16];
    assert_eq!(pack(5, 20, 0, b"/in/fox", b"", &mut destination), Ok(14));
    assert_eq!(destination[..14], bytes);
    assert_eq!(destination[14..], [0xEE, 0xEE]);
}

#[test]
fn names_of_14_and_15_bytes() {
    three_users().play(
        "20 create /abcdefghijklmn -> done 3
         20 create /abcdefghijklmno -> refused 3
         20 create /in/abcdefghijklmn -> done 4
         20 create /in/abcdefghijklmno -> refused 3",
    );
}

#[test]
fn targets_of_64_and_65_bytes() {
    let mut world = three_users();
    let name = "/abcdefghijklm".repeat(5);
    for (length, relative, wanted) in [
        (64, false, Answer::Done(3)),
        (65, false, Answer::Refused(3)),
        (64, true, Answer::Done(4)),
        (65, true, Answer::Refused(3)),
    ] {
        let first = usize::from(relative);
        let target = &name.as_bytes()[first..first + length];
        let path = if relative { b"/in/b" } else { b"/in/a" };
        assert_eq!(world.serve(&record("symlink", 20, 0, path, target)).0, wanted);
    }
}

#[test]
fn eight_links_and_nine() {
    let mut world = three_users();
    world.play("20 create /l0 -> done 3");
    for number in 1..=9 {
        let line = format!("20 symlink /l{number} l{} -> done {}", number - 1, number + 3);
        world.play(&line);
    }
    world.play(
        "20 exec -> done 20
         20 check /l9 -> refused 7
         20 use /l9 -> refused 7
         20 look /l9 -> held 12
         20 exec -> done 20
         20 check /l8 -> held 3",
    );
    assert_eq!(world.holds(), 9);
}

#[test]
fn empty_path() {
    let mut world = three_users();
    assert_eq!(world.serve(&record("check", 20, 0, b"", b"")), (Answer::Refused(3), 7));
}

#[test]
fn the_root_directory() {
    three_users().unchanged(
        "20 check / -> held 1
         20 look / -> held 1
         20 use / -> held 1
         20 rmdir / -> refused 12
         20 unlink / -> refused 12
         20 create / -> refused 11
         20 mkdir / -> refused 11
         20 symlink / in -> refused 11
         10 rmdir / -> refused 12",
    );
}

#[test]
fn create_through_a_dangling_last_link() {
    three_users().play(
        "20 symlink /in/link absent -> done 3
         20 create /in/link -> refused 11
         10 create /in/link -> refused 11
         20 mkdir /in/link -> refused 11",
    );
}

#[test]
fn entries_to_512_and_one_more() {
    let mut world = played("10 enter 0 -> done 10\n10 create /f -> done 2");
    for number in 1..512 {
        world.play(&format!("10 link /n{number} /f -> done 2\n10 exec -> done 10"));
    }
    assert_eq!(free_rows(&world.tables.entries), 0);
    assert!(free_rows(&world.tables.nodes) > 0);
    world.play(
        "10 link /n512 /f -> refused 15
         10 create /n512 -> refused 15
         10 mkdir /n512 -> refused 15
         10 symlink /n512 f -> refused 15
         10 unlink /n7 -> done 2
         10 link /n512 /f -> done 2",
    );
}

#[test]
fn nodes_to_256_and_one_more() {
    let mut world = played("10 enter 0 -> done 10");
    for number in 2..=256 {
        world.play(&format!("10 create /n{number} -> done {number}\n10 exec -> done 10"));
    }
    world.play(
        "10 create /more -> refused 15
         10 mkdir /more -> refused 15
         10 symlink /more n2 -> refused 15
         10 link /more /n2 -> done 2
         10 unlink /n100 -> done 100
         10 mkdir /again -> done 100",
    );
}

#[test]
fn processes_to_64_and_one_more() {
    let mut world = World::fresh();
    for number in 1..=64 {
        world.play(&format!("{number} enter {} -> done {number}", number * 10));
    }
    assert_eq!(used_rows(&world.tables.processes), 64);
    world.play(
        "65 enter 0 -> refused 6
         1 fork 65 -> refused 6
         1 fork 2 -> refused 5
         7 exit -> done 7
         1 fork 65 -> done 65",
    );
    assert_eq!(
        world.tables.processes[6].as_ref().map(|row| (row.process, row.user)),
        Some((65, 10))
    );
}

#[test]
fn holds_to_256_and_one_more() {
    let mut world = three_users();
    for number in 0..256 {
        world.play(&format!("20 check /n{number} -> held 0"));
    }
    assert_eq!(world.holds(), 256);
    world.unchanged(
        "20 check /n256 -> refused 16
         30 check /n256 -> refused 16
         30 check /n0 -> seen 0
         20 check /n0 -> held 0
         30 create /n256 -> refused 16
         20 fork 21 -> refused 16
         10 check /n0 -> refused 16
         10 create /n0 -> refused 16",
    );
    world.play("20 create /n0 -> done 3\n30 check / -> held 1");
}

#[test]
fn a_path_of_256_bytes_given_to_packing() {
    let path = "/abc".repeat(64);
    let mut destination = [0xEE; 600];
    assert_eq!(pack(5, 20, 0, path.as_bytes(), b"", &mut destination), Err(3));
    assert_eq!(destination, [0xEE; 600]);
    assert_eq!(pack(5, 20, 0, &path.as_bytes()[..255], b"", &mut destination), Ok(262));
}
