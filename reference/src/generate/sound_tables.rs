//! Random sound tables, built as rows and not by calls, of all degrees of filling. What calls
//! never reach is among them: directories in themselves, holds without entries, element holds
//! on no link.

use std::collections::{HashMap, HashSet};

use super::Random;
use crate::limits::{
    ENTRY_ROWS, HOLD_ROWS, NAME_BYTES, NODE_ROWS, PROCESS_ROWS, START, TARGET_BYTES,
};
use crate::paths::{valid_name, valid_target};
use crate::tables::{DirectoryAndName, Entry, Hold, Kind, Node, Process, Role, Tables};

/// Names that come often, so that tables collide with each other and with traces.
const NAMES: [&[u8]; 12] = [
    b"in",
    b"fox",
    b"a",
    b"b",
    b"deep",
    b"out",
    b"l0",
    b"l1",
    b"l2",
    b"...",
    b".a",
    b"fourteen-bytes",
];
/// Targets that come often.
const TARGETS: [&[u8]; 12] = [
    b"/",
    b"/in",
    b"in",
    b"/l0",
    b"l1",
    b"/l2",
    b"a/b",
    b"/deep/fox",
    b"fox",
    b"l0/l1",
    b"out",
    b"/b",
];
/// Users that come often.
const USERS: [u16; 4] = [0, 500, 600, 65535];

/// Random sound tables.
pub fn sound_tables(random: &mut Random) -> Tables {
    let mut tables = Tables::fresh();
    add_nodes(random, &mut tables);
    add_processes(random, &mut tables);
    add_holds(random, &mut tables);
    tables
}

/// How much of a table is filled: nothing, a little, any part, nearly all or all.
fn filling(random: &mut Random, rows: usize) -> usize {
    match random.below(10) {
        0 => 0,
        1..=4 => random.below(rows.min(12)),
        5..=7 => random.below(rows),
        8 => rows - random.below(3).min(rows),
        _ => rows,
    }
}

/// So many rows of a table: the first ones, or any.
fn some_rows(random: &mut Random, count: usize, rows: usize) -> Vec<usize> {
    if random.percent(50) {
        return (0..count).collect();
    }
    random.distinct(count, rows)
}

/// A valid name: a common one, a numbered one, or any bytes.
fn some_name(random: &mut Random) -> Vec<u8> {
    match random.below(8) {
        0..=3 => random.pick(&NAMES).to_vec(),
        4..=6 => numbered_name(random),
        _ => any_name(random, NAME_BYTES),
    }
}

/// The letter n and three digits.
fn numbered_name(random: &mut Random) -> Vec<u8> {
    let mut digit = || b'0' + random.below(10) as u8;
    vec![b'n', digit(), digit(), digit()]
}

/// A valid name of any bytes and of at most so many.
fn any_name(random: &mut Random, most: usize) -> Vec<u8> {
    loop {
        let length = random.between(1, most);
        let name: Vec<u8> = (0..length).map(|_| random.below(256) as u8).collect();
        if valid_name(&name) {
            return name;
        }
    }
}

/// A valid target: a common one, or any names up to 64 bytes.
fn some_target(random: &mut Random) -> Vec<u8> {
    if random.percent(70) {
        return random.pick(&TARGETS).to_vec();
    }
    let mut target = if random.percent(50) { b"/".to_vec() } else { Vec::new() };
    target.extend(any_name(random, NAME_BYTES));
    while random.percent(80) && target.len() + 2 <= TARGET_BYTES {
        let most = NAME_BYTES.min(TARGET_BYTES - target.len() - 1);
        target.push(b'/');
        target.extend(any_name(random, most));
    }
    debug_assert!(valid_target(&target));
    target
}

/// A random node without entries yet.
fn some_node(random: &mut Random) -> Node {
    let kind = *random.pick(&[Kind::File, Kind::Directory, Kind::Directory, Kind::Link]);
    let target = if kind == Kind::Link { some_target(random) } else { Vec::new() };
    Node { kind, entries: 0, target }
}

/// Adds nodes with the entries that lead to them, and further entries to files and links.
fn add_nodes(random: &mut Random, tables: &mut Tables) {
    let count = filling(random, NODE_ROWS - 1);
    let numbers: Vec<u16> =
        some_rows(random, count, NODE_ROWS - 1).into_iter().map(|row| row as u16 + 2).collect();
    for number in &numbers {
        tables.nodes[usize::from(*number) - 1] = Some(some_node(random));
    }
    let further = filling(random, ENTRY_ROWS - count);
    let entry_rows = some_rows(random, count + further, ENTRY_ROWS);
    let mut maker = EntryMaker::new(tables.directories());
    let many: Vec<u16> =
        numbers.iter().copied().filter(|number| !tables.is_directory(*number)).collect();
    for (place, row) in entry_rows.into_iter().enumerate() {
        let node = match numbers.get(place) {
            Some(number) => *number,
            None if many.is_empty() => break,
            None => *random.pick(&many),
        };
        let is_directory = tables.is_directory(node);
        tables.entries[row] = Some(maker.entry(random, node, is_directory));
        if let Some(used) = &mut tables.nodes[usize::from(node) - 1] {
            used.entries += 1;
        }
    }
}

/// Makes entries of distinct directory and name.
struct EntryMaker {
    /// All directory nodes.
    all: Vec<u16>,
    /// Those that can be reached from node 1 so far.
    reached: Vec<u16>,
    /// The directories and names given out.
    given: HashSet<DirectoryAndName>,
}

impl EntryMaker {
    /// A maker for these directory nodes.
    fn new(all: Vec<u16>) -> EntryMaker {
        EntryMaker { all, reached: vec![START], given: HashSet::with_capacity(ENTRY_ROWS) }
    }

    /// An entry that leads to the node, mostly in a directory that can be reached.
    fn entry(&mut self, random: &mut Random, node: u16, is_directory: bool) -> Entry {
        loop {
            let from_reached = random.percent(88);
            let directories = if from_reached { &self.reached } else { &self.all };
            let directory = *random.pick(directories);
            let name = some_name(random);
            if self.given.insert((directory, name.clone())) {
                if is_directory && self.reached.contains(&directory) {
                    self.reached.push(node);
                }
                return Entry { directory, name, node };
            }
        }
    }
}

/// Adds processes of distinct numbers.
fn add_processes(random: &mut Random, tables: &mut Tables) {
    let count = filling(random, PROCESS_ROWS);
    let mut given = HashSet::new();
    for row in some_rows(random, count, PROCESS_ROWS) {
        let mut process = 0;
        while process == 0 || !given.insert(process) {
            process =
                if random.percent(80) { random.below(90) } else { random.below(65536) } as u16;
        }
        let any = random.below(65536) as u16;
        let user = if random.percent(85) { *random.pick(&USERS) } else { any };
        tables.processes[row] = Some(Process { process, user });
    }
}

/// Adds holds that are distinct, end holds on one place of one user; a hold that doesn't fit
/// is left out and another tried.
fn add_holds(random: &mut Random, tables: &mut Tables) {
    let processes: Vec<Process> = tables.processes.iter().flatten().cloned().collect();
    if processes.is_empty() {
        return;
    }
    let directories = tables.directories();
    let places = tables.places();
    let count = filling(random, HOLD_ROWS);
    let mut given: HashSet<Hold> = HashSet::with_capacity(count);
    let mut users: HashMap<DirectoryAndName, u16> = HashMap::with_capacity(count);
    for row in some_rows(random, count, HOLD_ROWS) {
        loop {
            let (directory, name) = if !places.is_empty() && random.percent(60) {
                random.pick(&places).clone()
            } else {
                (*random.pick(&directories), some_name(random))
            };
            let Process { process, user } = *random.pick(&processes);
            let role = *random.pick(&[Role::End, Role::End, Role::Element]);
            let one_user = role == Role::Element
                || *users.entry((directory, name.clone())).or_insert(user) == user;
            let hold = Hold { directory, name, process, role };
            if one_user && given.insert(hold.clone()) {
                tables.holds[row] = Some(hold);
                break;
            }
        }
    }
}
