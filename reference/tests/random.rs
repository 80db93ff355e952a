//! Random traces: the account of used entry rows, sound tables, demand 3, records there and
//! back.

mod common;

use common::World;
use reference::generate::{sound_tables, Mode, Random, Trace, MODES};
use reference::records::{assemble, pack, read, row_of_name, CallName, Class, CALLS};
use reference::tables::used_rows;
use reference::{serve, serve_tables, sound, walk, Answer, Tables};

#[test]
fn traces_keep_words_and_rows_equal_and_sound() {
    for (mode, name) in MODES {
        let mut trace = Trace::new(mode, 11);
        let mut world = World::fresh();
        for _ in 0..1500 {
            let record = trace.next_record();
            let (answer, taken) = world.serve(&record);
            assert_eq!(taken, record.len(), "{name} {answer:?}");
        }
        assert_eq!(world.tables, trace.tables);
    }
}

#[test]
fn used_entry_rows_equal_creations_less_removals() {
    for (mode, name) in MODES {
        let mut trace = Trace::new(mode, 12);
        let mut tables = Tables::fresh();
        let mut account = 0;
        for _ in 0..20_000 {
            let record = trace.next_record();
            let (answer, _) = serve_tables(&mut tables, &record);
            if let (Ok((call, _)), Answer::Done(_)) = (read(&record), answer) {
                match row_of_name(call.name).class {
                    Class::Creation => account += 1,
                    Class::Removal => account -= 1,
                    _ => {}
                }
            }
            assert_eq!(used_rows(&tables.entries), account, "{name}");
        }
        assert!(sound(&tables.pack()), "{name}");
    }
}

#[test]
fn every_answer_comes_in_its_mode() {
    let wanted: [(Mode, &[u32]); 7] = [
        (Mode::Mixed, &[4, 5, 8, 9, 10, 11, 12, 13, 14]),
        (Mode::Links, &[7, 8, 9, 10, 11, 14]),
        (Mode::Entries, &[15]),
        (Mode::Nodes, &[15]),
        (Mode::Processes, &[5, 6]),
        (Mode::Holds, &[16]),
        (Mode::Damaged, &[2, 3]),
    ];
    for (mode, numbers) in wanted {
        let mut trace = Trace::new(mode, 13);
        let mut counts = [0; 19];
        let mut tables = Tables::fresh();
        for _ in 0..20_000 {
            let (answer, _) = serve_tables(&mut tables, &trace.next_record());
            if let Answer::Refused(number) = answer {
                counts[number as usize] += 1;
            }
        }
        assert!(numbers.iter().all(|number| counts[*number as usize] >= 20), "{mode:?} {counts:?}");
    }
}

#[test]
fn entries_are_reached_by_hard_links_with_free_nodes_left() {
    let mut trace = Trace::new(Mode::Entries, 14);
    let full = (0..20_000).any(|_| {
        trace.next_record();
        used_rows(&trace.tables.entries) == 512 && used_rows(&trace.tables.nodes) < 200
    });
    assert!(full);
}

/// Whether a record is a call by a user other than this one and root, as the tables stand.
fn of_stranger(tables: &Tables, record: &[u8], user: u16) -> bool {
    let Ok((call, _)) = read(record) else {
        return true;
    };
    let strange = |other: u16| other != user && other != 0;
    match call.name {
        CallName::Enter => strange(call.argument),
        _ => tables.user(call.process).is_some_and(strange),
    }
}

/// After a held check, plays strangers' calls of the trace on a copy and compares the last
/// call, a check or a use of the same path, with the same call made at once.
fn guarded(trace: &Trace, process: u16, path: &[u8]) -> usize {
    let user = trace.tables.user(process).expect("listed");
    let check = assemble(5, process, 0, path, b"").expect("short");
    let mut tables = trace.tables.clone();
    let (answer, _) = serve_tables(&mut tables, &check);
    if !matches!(answer, Answer::Held(_)) {
        return 0;
    }
    let mut strangers = trace.clone();
    strangers.tables = tables.clone();
    let goal = walk(&tables, path, true);
    for _ in 0..40 {
        let before = strangers.tables.clone();
        let record = strangers.next_record();
        if !of_stranger(&before, &record, user) {
            strangers.tables = before;
        }
    }
    assert_eq!(goal, walk(&strangers.tables, path, true));
    for number in [5, 7] {
        let last = assemble(number, process, 0, path, b"").expect("short");
        let mut after = strangers.tables.clone();
        let answered = serve_tables(&mut after, &last);
        assert_eq!(answered, serve_tables(&mut tables.clone(), &last));
        assert_eq!(after, strangers.tables);
    }
    usize::from(strangers.tables != tables)
}

#[test]
fn demand_3() {
    for mode in [Mode::Mixed, Mode::Links, Mode::Entries, Mode::Nodes, Mode::Holds, Mode::Damaged] {
        let mut trace = Trace::new(mode, 15);
        let mut random = Random::new(16);
        let mut tried = 0;
        for _ in 0..4000 {
            let record = trace.next_record();
            let listed = trace.listed();
            if let (Ok((call, _)), false) = (read(&record), listed.is_empty()) {
                if !call.path1.is_empty() && random.percent(30) {
                    tried += guarded(&trace, *random.pick(&listed), &call.path1);
                }
            }
        }
        assert!(tried > 100, "{mode:?} {tried}");
    }
}

#[test]
fn demand_3_from_any_sound_tables() {
    let mut random = Random::new(17);
    let mut tried = 0;
    for seed in 0..600 {
        let mut trace = Trace::new(Mode::Mixed, seed);
        for _ in 0..8 {
            trace.next_record();
        }
        trace.tables = sound_tables(&mut random);
        let listed = trace.listed();
        if !listed.is_empty() {
            let paths: [&[u8]; 6] = [b"/in", b"/fox", b"/l0", b"/l1/a", b"/deep", b"/in/fox"];
            let path = *random.pick(&paths);
            tried += guarded(&trace, *random.pick(&listed), path);
        }
    }
    assert!(tried > 50, "{tried}");
}

#[test]
fn random_sound_tables_are_served() {
    let mut random = Random::new(18);
    for seed in 0..150 {
        let mut trace = Trace::new(Mode::Mixed, seed);
        let mut words = sound_tables(&mut random).pack();
        for _ in 0..30 {
            let (answer, _) = serve(&mut words, &trace.next_record());
            assert_ne!(answer, Answer::Refused(1));
            assert!(sound(&words));
        }
    }
}

/// A random path, good or bad.
fn some_path(random: &mut Random) -> Vec<u8> {
    let length = *random.pick(&[0, 1, 2, 5, 14, 64, 65, 255, 256]);
    let bytes = b"//aaabcdefghijkl.\0";
    let path: Vec<u8> = (0..length).map(|_| *random.pick(bytes)).collect();
    let names = [&b"/a"[..], b"/in/fox", b"/", b"in", b"/b/.."];
    if random.percent(60) {
        random.pick(&names).to_vec()
    } else {
        path
    }
}

#[test]
fn packing_and_reading_there_and_back() {
    let mut random = Random::new(19);
    let mut packed = 0;
    for _ in 0..200_000 {
        let call = random.below(16) as u64;
        let process = *random.pick(&[0, 1, 20, 32768, 65535]);
        let argument = *random.pick(&[0, 0, 0, 1, 65535]);
        let path1 = if random.percent(30) { Vec::new() } else { some_path(&mut random) };
        let path2 = if random.percent(60) { Vec::new() } else { some_path(&mut random) };
        let mut destination = vec![0xEE; 600];
        match pack(call, process, argument, &path1, &path2, &mut destination) {
            Err(number) => {
                assert!(destination.iter().all(|byte| *byte == 0xEE));
                if let Some(record) = assemble(call, process, argument, &path1, &path2) {
                    assert_eq!(read(&record), Err((number, record.len())));
                }
            }
            Ok(count) => {
                packed += 1;
                assert!(destination[count..].iter().all(|byte| *byte == 0xEE));
                let (found, taken) = read(&destination).expect("accepted");
                assert_eq!(taken, count);
                assert_eq!(CALLS[call as usize - 1].name, found.name);
                assert_eq!((found.process, found.argument), (process, argument));
                assert_eq!((found.path1, found.path2), (path1, path2));
            }
        }
    }
    assert!(packed > 1000);
}

#[test]
fn reading_random_bytes_and_packing_again() {
    let mut trace = Trace::new(Mode::Damaged, 20);
    let mut accepted = 0;
    for _ in 0..50_000 {
        let record = trace.next_record();
        if let Ok((call, taken)) = read(&record) {
            let mut destination = vec![0; taken];
            let number =
                CALLS.iter().position(|row| row.name == call.name).expect("a row") as u64 + 1;
            let (path1, path2) = (&call.path1, &call.path2);
            let count = pack(number, call.process, call.argument, path1, path2, &mut destination);
            assert_eq!((count, destination), (Ok(taken), record[..taken].to_vec()));
            accepted += 1;
        }
    }
    assert!(accepted > 1000);
}
