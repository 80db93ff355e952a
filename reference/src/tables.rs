//! Heading 'The lent tables': the four tables as plain rows.

use crate::limits::{ABSENCE, ENTRY_ROWS, HOLD_ROWS, NODE_ROWS, PROCESS_ROWS, START};
use crate::packed::PackedTables;
use crate::sound;

/// A directory's node number and a name: what entries, elements and holds stand on.
pub type DirectoryAndName = (u16, Vec<u8>);

/// A used entry row.
#[derive(Clone, Debug, PartialEq, Eq)]
pub struct Entry {
    /// Node number of the directory.
    pub directory: u16,
    /// The name in it.
    pub name: Vec<u8>,
    /// Node number led to.
    pub node: u16,
}

/// The kind of a used node.
#[derive(Clone, Copy, Debug, PartialEq, Eq)]
pub enum Kind {
    /// Kind 1.
    File,
    /// Kind 2.
    Directory,
    /// Kind 3.
    Link,
}

/// A used node row.
#[derive(Clone, Debug, PartialEq, Eq)]
pub struct Node {
    /// File, directory or link.
    pub kind: Kind,
    /// How many entries lead here.
    pub entries: u16,
    /// A link's target; empty for the other kinds.
    pub target: Vec<u8>,
}

/// The role of a hold.
#[derive(Clone, Copy, Debug, PartialEq, Eq, Hash)]
pub enum Role {
    /// Role 1: the hold guards an end entry.
    End,
    /// Role 2: the hold guards a link that was followed.
    Element,
}

/// A used hold row.
#[derive(Clone, Debug, PartialEq, Eq, Hash)]
pub struct Hold {
    /// Node number of the directory.
    pub directory: u16,
    /// The name in it, present or absent.
    pub name: Vec<u8>,
    /// The process that has the hold.
    pub process: u16,
    /// End or element.
    pub role: Role,
}

impl Hold {
    /// Whether the hold stands on this directory and name.
    pub fn stands_on(&self, place: &DirectoryAndName) -> bool {
        self.directory == place.0 && self.name == place.1
    }
}

/// A used process row.
#[derive(Clone, Debug, PartialEq, Eq)]
pub struct Process {
    /// The process number.
    pub process: u16,
    /// Its user.
    pub user: u16,
}

/// The four tables; a free row is `None`. Node n is row n - 1.
#[derive(Clone, Debug, PartialEq, Eq)]
pub struct Tables {
    /// 512 rows.
    pub entries: Vec<Option<Entry>>,
    /// 256 rows.
    pub nodes: Vec<Option<Node>>,
    /// 256 rows.
    pub holds: Vec<Option<Hold>>,
    /// 64 rows.
    pub processes: Vec<Option<Process>>,
}

/// 'Holds': the lowest free row of a table.
pub fn lowest_free<Row>(rows: &[Option<Row>]) -> Option<usize> {
    rows.iter().position(Option::is_none)
}

/// How many rows of a table are free.
pub fn free_rows<Row>(rows: &[Option<Row>]) -> usize {
    rows.iter().filter(|row| row.is_none()).count()
}

/// How many rows of a table are used.
pub fn used_rows<Row>(rows: &[Option<Row>]) -> usize {
    rows.len() - free_rows(rows)
}

impl Tables {
    /// Fresh tables: every row free but node 1, a directory to which no entry leads.
    pub fn fresh() -> Tables {
        let mut nodes = vec![None; NODE_ROWS];
        nodes[0] = Some(Node { kind: Kind::Directory, entries: 0, target: Vec::new() });
        Tables {
            entries: vec![None; ENTRY_ROWS],
            nodes,
            holds: vec![None; HOLD_ROWS],
            processes: vec![None; PROCESS_ROWS],
        }
    }

    /// The tables as 8,512 words.
    pub fn pack(&self) -> Vec<u32> {
        PackedTables::from_tables(self).words()
    }

    /// The rows of sound words; nothing for any other slice.
    pub fn unpack(words: &[u32]) -> Option<Tables> {
        let packed = PackedTables::read(words)?;
        if !sound::sound_rows(&packed) {
            return None;
        }
        packed.to_tables()
    }

    /// The used node of a number, if it is one.
    pub fn node(&self, number: u16) -> Option<&Node> {
        let row = usize::from(number).checked_sub(1)?;
        self.nodes.get(row)?.as_ref()
    }

    /// The kind of a node, or nothing for an absence.
    pub fn kind(&self, number: u16) -> Option<Kind> {
        self.node(number).map(|node| node.kind)
    }

    /// Whether the number is that of a directory node.
    pub fn is_directory(&self, number: u16) -> bool {
        self.kind(number) == Some(Kind::Directory)
    }

    /// The row of the entry with this directory and name, if present.
    pub fn entry_row(&self, directory: u16, name: &[u8]) -> Option<usize> {
        self.entries.iter().position(|row| {
            row.as_ref().is_some_and(|entry| entry.directory == directory && entry.name == name)
        })
    }

    /// The node to which a directory and name lead, 0 for an absence.
    pub fn node_led_to(&self, directory: u16, name: &[u8]) -> u16 {
        self.entry_row(directory, name)
            .and_then(|row| self.entries[row].as_ref())
            .map_or(ABSENCE, |entry| entry.node)
    }

    /// The user of a listed process.
    pub fn user(&self, process: u16) -> Option<u16> {
        self.processes.iter().flatten().find(|row| row.process == process).map(|row| row.user)
    }

    /// Whether any entry is in this directory.
    pub fn has_entries(&self, directory: u16) -> bool {
        self.entries.iter().flatten().any(|entry| entry.directory == directory)
    }

    /// The directory and name of every used entry.
    pub fn places(&self) -> Vec<DirectoryAndName> {
        let rows = self.entries.iter().flatten();
        rows.map(|entry| (entry.directory, entry.name.clone())).collect()
    }

    /// The numbers of all directory nodes, node 1 first where it is one.
    pub fn directories(&self) -> Vec<u16> {
        (START..=NODE_ROWS as u16).filter(|number| self.is_directory(*number)).collect()
    }
}
