//! Random traces: records one after another, aimed with the help of the tables they lead to.

use std::collections::VecDeque;

use super::{aim, brim, damage, Random};
use crate::limits::NODE_ROWS;
use crate::records::{assemble, number_of_name, CallName};
use crate::serve::serve_tables;
use crate::tables::Tables;

/// What a trace is about.
#[derive(Clone, Copy, Debug, PartialEq, Eq)]
pub enum Mode {
    /// Few users, processes, directories and names, so that calls collide.
    Mixed,
    /// Chains, rings and all other sorts of links.
    Links,
    /// The table of entries at its brim, by hard links.
    Entries,
    /// The table of nodes at its brim.
    Nodes,
    /// The table of processes at its brim.
    Processes,
    /// The table of holds at its brim.
    Holds,
    /// Mixed, with damaged records between.
    Damaged,
}

/// Every mode with its name in text.
pub const MODES: [(Mode, &str); 7] = [
    (Mode::Mixed, "mixed"),
    (Mode::Links, "links"),
    (Mode::Entries, "entries"),
    (Mode::Nodes, "nodes"),
    (Mode::Processes, "processes"),
    (Mode::Holds, "holds"),
    (Mode::Damaged, "damaged"),
];

/// A call to be written; any field may turn out to be refused.
#[derive(Clone, Debug)]
pub struct Wish {
    /// Which call.
    pub name: CallName,
    /// The calling process.
    pub process: u16,
    /// The user or child.
    pub argument: u16,
    /// Path 1.
    pub path1: Vec<u8>,
    /// Path 2.
    pub path2: Vec<u8>,
}

impl Wish {
    /// A call of a process without argument or paths.
    pub fn new(name: CallName, process: u16) -> Wish {
        Wish { name, process, argument: 0, path1: Vec::new(), path2: Vec::new() }
    }

    /// The call with this argument.
    pub fn argument(self, argument: u16) -> Wish {
        Wish { argument, ..self }
    }

    /// The call with this path 1.
    pub fn path(self, path: impl Into<Vec<u8>>) -> Wish {
        Wish { path1: path.into(), ..self }
    }

    /// The call with this path 2.
    pub fn second(self, path: impl Into<Vec<u8>>) -> Wish {
        Wish { path2: path.into(), ..self }
    }

    /// The record, paths cut to 255 bytes.
    fn record(mut self) -> Vec<u8> {
        self.path1.truncate(255);
        self.path2.truncate(255);
        let number = number_of_name(self.name);
        assemble(number, self.process, self.argument, &self.path1, &self.path2).unwrap_or_default()
    }
}

/// A trace in the making.
#[derive(Clone, Debug)]
pub struct Trace {
    /// What it is about.
    pub mode: Mode,
    /// Its random numbers.
    pub random: Random,
    /// The tables after the records so far.
    pub tables: Tables,
    opening: VecDeque<Wish>,
}

impl Trace {
    /// A trace before its first record.
    pub fn new(mode: Mode, seed: u64) -> Trace {
        let opening = match mode {
            Mode::Links => aim::links_opening(),
            Mode::Mixed | Mode::Damaged => aim::mixed_opening(),
            _ => brim::opening(),
        };
        Trace { mode, random: Random::new(seed), tables: Tables::fresh(), opening: opening.into() }
    }

    /// The next record.
    pub fn next_record(&mut self) -> Vec<u8> {
        let wish = match self.opening.pop_front() {
            Some(wish) => wish,
            None => self.next_wish(),
        };
        let mut record = wish.record();
        if self.mode == Mode::Damaged && self.random.percent(40) {
            damage::damage(&mut self.random, &mut record);
        }
        serve_tables(&mut self.tables, &record);
        record
    }

    /// The last record of a trace; the damaged mode cuts it off.
    pub fn last_record(&mut self) -> Vec<u8> {
        let mut record = self.next_record();
        if self.mode == Mode::Damaged {
            let left = self.random.between(1, record.len() - 1);
            record.truncate(left);
        }
        record
    }

    /// The next call by the mode.
    fn next_wish(&mut self) -> Wish {
        match self.mode {
            Mode::Mixed | Mode::Damaged => aim::mixed(self),
            Mode::Links => aim::links(self),
            Mode::Entries => brim::entries(self),
            Mode::Nodes => brim::nodes(self),
            Mode::Processes => brim::processes(self),
            Mode::Holds => brim::holds(self),
        }
    }

    /// The listed processes.
    pub fn listed(&self) -> Vec<u16> {
        self.tables.processes.iter().flatten().map(|row| row.process).collect()
    }

    /// A listed process, or this one where none is.
    pub fn some_listed(&mut self, otherwise: u16) -> u16 {
        let listed = self.listed();
        if listed.is_empty() {
            return otherwise;
        }
        *self.random.pick(&listed)
    }

    /// The path of an entry that is present, `/` where none is.
    pub fn present_path(&mut self) -> Vec<u8> {
        let places = self.tables.places();
        if places.is_empty() {
            return b"/".to_vec();
        }
        let (directory, name) = self.random.pick(&places);
        [path_of_directory(&self.tables, *directory), b"/".to_vec(), name.clone()].concat()
    }
}

/// The path of a directory node, found from the entries that lead upwards; where they lead in a
/// ring, some path.
fn path_of_directory(tables: &Tables, number: u16) -> Vec<u8> {
    let mut path = Vec::new();
    let mut directory = number;
    for _ in 0..NODE_ROWS {
        let leading = tables.entries.iter().flatten().find(|entry| entry.node == directory);
        let Some(entry) = leading else {
            break;
        };
        path = [b"/", entry.name.as_slice(), &path].concat();
        directory = entry.directory;
    }
    path
}
