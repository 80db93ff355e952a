//! Heading 'The lent tables': packing, soundness and each rule broken alone.

mod common;

use common::{record, World};
use reference::generate::{broken_tables, flip_bits, sound_tables, Random};
use reference::limits::{ENTRY_FIRST, HOLD_FIRST, NODE_FIRST, PROCESS_FIRST};
use reference::sound::{Rule, RULES};
use reference::tables::{Entry, Hold, Kind, Node, Process, Role};
use reference::{broken_rules, serve, sound, Answer, Tables, WORDS};

/// Tables with one row of each sort beside node 1.
fn small() -> Tables {
    let mut tables = Tables::fresh();
    tables.nodes[1] = Some(Node { kind: Kind::Link, entries: 1, target: b"/in".to_vec() });
    tables.entries[3] = Some(Entry { directory: 1, name: b"fox".to_vec(), node: 2 });
    tables.processes[5] = Some(Process { process: 20, user: 500 });
    let name = b"abcdefghijklmn".to_vec();
    tables.holds[7] = Some(Hold { directory: 1, name, process: 20, role: Role::Element });
    tables
}

#[test]
fn rows_in_words() {
    let words = small().pack();
    assert_eq!(words.len(), WORDS);
    let entry = ENTRY_FIRST + 3 * 5;
    assert_eq!(words[entry..entry + 5], [0x0001_0002, 0x0366_6F78, 0, 0, 0]);
    let node = NODE_FIRST + 17;
    assert_eq!(words[NODE_FIRST], 0x8000_0000);
    assert_eq!(words[node..node + 3], [3 << 30 | 3 << 23 | 1 << 13, 0x2F69_6E00, 0]);
    let hold = HOLD_FIRST + 7 * 6;
    let block = [0x0001_0014, 0x0E61_6263, 0x6465_6667, 0x6869_6A6B, 0x6C6D_6E00, 2 << 30];
    assert_eq!(words[hold..hold + 6], block);
    assert_eq!(words[PROCESS_FIRST + 5], 0x0014_01F4);
    assert_eq!(words.iter().filter(|word| **word != 0).count(), 2 + 1 + 2 + 6 + 1);
    assert_eq!(Tables::unpack(&words), Some(small()));
}

#[test]
fn random_tables_are_sound_and_packed_there_and_back() {
    let mut random = Random::new(1);
    for _ in 0..400 {
        let tables = sound_tables(&mut random);
        let words = tables.pack();
        assert_eq!(broken_rules(&words), []);
        assert!(sound(&words));
        assert_eq!(Tables::unpack(&words), Some(tables));
    }
}

#[test]
fn random_tables_reach_both_ends_of_filling() {
    use reference::tables::{free_rows, used_rows};
    let mut random = Random::new(2);
    let all: Vec<Tables> = (0..400).map(|_| sound_tables(&mut random)).collect();
    assert!(all.iter().any(|tables| free_rows(&tables.entries) == 0));
    assert!(all.iter().any(|tables| free_rows(&tables.nodes) == 0));
    assert!(all.iter().any(|tables| free_rows(&tables.holds) == 0));
    assert!(all.iter().any(|tables| free_rows(&tables.processes) == 0));
    assert!(all.iter().any(|tables| used_rows(&tables.nodes) == 1));
    assert!(all.iter().any(|tables| used_rows(&tables.holds) == 0));
}

#[test]
fn each_rule_is_broken_alone_and_refused_with_1() {
    let mut random = Random::new(3);
    let enter = record("enter", 10, 0, b"", b"");
    for (rule, name) in RULES {
        for _ in 0..8 {
            let mut words = broken_tables(&mut random, rule);
            let before = words.clone();
            assert_eq!(broken_rules(&words), [rule], "{name}");
            assert!(!sound(&words));
            assert_eq!(Tables::unpack(&words), None);
            assert_eq!(serve(&mut words, &enter), (Answer::Refused(1), 7));
            assert_eq!(words, before);
        }
    }
}

/// The rules broken when one word of the small tables is set to a value.
fn broken_by(place: usize, value: u32) -> Vec<Rule> {
    let mut words = small().pack();
    words[place] = value;
    broken_rules(&words)
}

#[test]
fn rules_broken_by_hand() {
    let entry = ENTRY_FIRST + 15;
    let node = NODE_FIRST + 17;
    let hold = HOLD_FIRST + 42;
    assert_eq!(broken_rules(&small().pack()), []);
    assert_eq!(broken_by(ENTRY_FIRST, 1), [Rule::FreeEntryRow]);
    assert_eq!(broken_by(NODE_FIRST + 40, 1), [Rule::FreeNodeRow]);
    assert_eq!(broken_by(HOLD_FIRST + 1, 1), [Rule::FreeHoldRow]);
    assert_eq!(broken_by(PROCESS_FIRST, 500), [Rule::FreeProcessRow]);
    assert_eq!(broken_by(entry + 4, 0x80), [Rule::NameZeroBits]);
    assert_eq!(broken_by(entry + 4, 0x100), [Rule::NameFilling]);
    assert_eq!(broken_by(node + 16, 1), [Rule::TargetFilling]);
    assert_eq!(broken_by(NODE_FIRST, 2 << 30 | 1), [Rule::NodeZeroBits]);
    assert_eq!(broken_by(NODE_FIRST, 2 << 30 | 1 << 23), [Rule::TargetOfLinkOnly]);
    assert_eq!(broken_by(hold + 5, 2 << 30 | 1), [Rule::HoldZeroBits]);
    assert_eq!(broken_by(hold + 5, 3 << 30), [Rule::HoldRole]);
    assert_eq!(broken_by(hold + 5, 0), [Rule::HoldRole]);
    assert_eq!(broken_by(hold, 257 << 16 | 20), [Rule::HoldDirectory]);
    assert_eq!(broken_by(hold, 2 << 16 | 20), [Rule::HoldDirectory]);
    assert_eq!(broken_by(hold, 1 << 16 | 21), [Rule::HoldProcess]);
    assert_eq!(broken_by(hold + 1, 0x0F61_6263), [Rule::HoldName]);
    assert_eq!(broken_by(entry + 1, 0x0300_6F78), [Rule::EntryName]);
    assert_eq!(broken_by(entry, 257 << 16 | 2), [Rule::EntryDirectory]);
    assert_eq!(broken_by(node + 1, 0x2F69_2F00), [Rule::TargetValid]);
    assert_eq!(broken_by(node, 3 << 30 | 3 << 23 | 2 << 13), [Rule::EntryCount]);
    assert_eq!(broken_by(PROCESS_FIRST, 20 << 16), [Rule::ProcessesDistinct]);
}

#[test]
fn rings_and_holds_without_entries_are_sound() {
    let mut tables = small();
    for number in 2..5 {
        tables.nodes[number] = Some(Node { kind: Kind::Directory, entries: 1, target: Vec::new() });
    }
    let rows = [(3, 3), (4, 5), (5, 4)];
    for (row, (directory, node)) in rows.into_iter().enumerate() {
        tables.entries[100 + row] = Some(Entry { directory, name: b"x".to_vec(), node });
    }
    let name = b"nothing".to_vec();
    tables.holds[9] = Some(Hold { directory: 5, name, process: 20, role: Role::Element });
    World::of(tables).play("20 check /x -> held 0\n20 check /fox -> held 0");
}

#[test]
fn root_is_a_user_like_the_others_for_end_holds() {
    let mut tables = small();
    tables.processes[6] = Some(Process { process: 21, user: 500 });
    tables.processes[7] = Some(Process { process: 10, user: 0 });
    for (row, process) in [20, 21].into_iter().enumerate() {
        let name = b"x".to_vec();
        tables.holds[row] = Some(Hold { directory: 1, name, process, role: Role::End });
    }
    assert!(sound(&tables.pack()));
    let name = b"x".to_vec();
    tables.holds[2] = Some(Hold { directory: 1, name, process: 10, role: Role::Element });
    assert!(sound(&tables.pack()));
    if let Some(hold) = &mut tables.holds[2] {
        hold.role = Role::End;
    }
    assert_eq!(broken_rules(&tables.pack()), [Rule::EndHoldsOfOneUser]);
}

#[test]
fn flipped_bits() {
    let mut random = Random::new(4);
    let mut unsound = 0;
    for count in 1..60 {
        let words = sound_tables(&mut random).pack();
        let mut flipped = words.clone();
        flip_bits(&mut random, &mut flipped, count % 6 + 1);
        let turned: u32 = words.iter().zip(&flipped).map(|(a, b)| (a ^ b).count_ones()).sum();
        assert_eq!(turned as usize, count % 6 + 1);
        unsound += usize::from(!sound(&flipped));
    }
    assert!(unsound > 30);
}

#[test]
fn slices_of_other_lengths() {
    let words = Tables::fresh().pack();
    assert_eq!(broken_rules(&words[1..]), [Rule::SliceLength]);
    assert_eq!(broken_rules(&[words.clone(), vec![0]].concat()), [Rule::SliceLength]);
    assert!(!sound(&[]));
    assert!(sound(&words));
}
