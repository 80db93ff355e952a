//! The tables read row by row, for those who want to tell why a call was refused or show what
//! stands where. Reading alone: only calls change the tables.

use crate::limits::LONGEST_NAME;

/// Words of the tables.
pub const WORDS: usize = 8_512;
/// Rows for entries: the names that can be present at once.
pub const ENTRY_ROWS: usize = 512;
/// Rows for nodes: the files, directories and links, `/` among them.
pub const NODE_ROWS: usize = 256;
/// Rows for holds.
pub const HOLD_ROWS: usize = 256;
/// Rows for processes.
pub const PROCESS_ROWS: usize = 64;
/// The node of `/`.
pub const START: u16 = 1;

const ENTRY_WORDS: usize = 5;
const NODE_WORDS: usize = 17;
const HOLD_WORDS: usize = 6;
const NODE_FIRST: usize = ENTRY_ROWS * ENTRY_WORDS;
const HOLD_FIRST: usize = NODE_FIRST + NODE_ROWS * NODE_WORDS;
const PROCESS_FIRST: usize = HOLD_FIRST + HOLD_ROWS * HOLD_WORDS;

/// A name in a directory, present or absent.
#[derive(Clone, Debug, PartialEq, Eq, Hash)]
pub struct Place {
    /// The node of the directory.
    pub directory: u16,
    /// The name.
    pub name: Vec<u8>,
}

/// A name that is present.
#[derive(Clone, Debug, PartialEq, Eq)]
pub struct Entry {
    /// Where it stands.
    pub place: Place,
    /// The node that it leads to.
    pub node: u16,
}

/// What a node is.
#[derive(Clone, Copy, Debug, PartialEq, Eq)]
pub enum Kind {
    /// A file.
    File,
    /// A directory.
    Directory,
    /// A symbolic link.
    Link,
}

/// A node that is used.
#[derive(Clone, Debug, PartialEq, Eq)]
pub struct Node {
    /// What it is.
    pub kind: Kind,
    /// How many entries lead to it.
    pub entries: u16,
    /// The target of a link; empty for the other kinds.
    pub target: Vec<u8>,
}

/// What a hold guards its entry as.
#[derive(Clone, Copy, Debug, PartialEq, Eq)]
pub enum Role {
    /// The end of a path.
    End,
    /// A link that was followed.
    Element,
}

/// A hold.
#[derive(Clone, Debug, PartialEq, Eq)]
pub struct Hold {
    /// The entry that is held, present or absent.
    pub place: Place,
    /// The process that has the hold.
    pub process: u16,
    /// What it guards the entry as.
    pub role: Role,
}

/// A listed process.
#[derive(Clone, Copy, Debug, PartialEq, Eq)]
pub struct Process {
    /// Its number.
    pub number: u16,
    /// Its user; 0 is root.
    pub user: u16,
}

/// The tables of some words, by row.
#[derive(Clone, Copy, Debug)]
pub struct Tables<'words> {
    words: &'words [u32],
}

impl<'words> Tables<'words> {
    /// The tables of these words. Where they are too few, the rows beyond them are free. Where they
    /// are not sound, something is read all the same: a role that is not the end's is an element's,
    /// and a name or target longer than its room is as long as that.
    pub fn of(words: &'words [u32]) -> Tables<'words> {
        Tables { words }
    }

    /// The used entries, in row order.
    pub fn entries(&self) -> impl Iterator<Item = Entry> + 'words {
        self.rows(0, ENTRY_ROWS, ENTRY_WORDS).filter_map(|row| {
            let (directory, node) = halves(row[0]);
            (directory != 0).then(|| Entry { place: place(directory, &row[1..]), node })
        })
    }

    /// The holds, in row order.
    pub fn holds(&self) -> impl Iterator<Item = Hold> + 'words {
        self.rows(HOLD_FIRST, HOLD_ROWS, HOLD_WORDS).filter_map(|row| {
            let (directory, process) = halves(row[0]);
            let role = if row[HOLD_WORDS - 1] >> 30 == 1 { Role::End } else { Role::Element };
            (directory != 0).then(|| Hold { place: place(directory, &row[1..]), process, role })
        })
    }

    /// The listed processes, in row order.
    pub fn processes(&self) -> impl Iterator<Item = Process> + 'words {
        self.rows(PROCESS_FIRST, PROCESS_ROWS, 1).filter_map(|row| {
            let (number, user) = halves(row[0]);
            (number != 0).then_some(Process { number, user })
        })
    }

    /// The node of a number, if it is used.
    pub fn node(&self, number: u16) -> Option<Node> {
        let row = usize::from(number).checked_sub(1)?;
        let words = self.rows(NODE_FIRST, NODE_ROWS, NODE_WORDS).nth(row)?;
        let kind = match words[0] >> 30 {
            1 => Kind::File,
            2 => Kind::Directory,
            3 => Kind::Link,
            _ => return None,
        };
        let length = (words[0] >> 23 & 0x7F) as usize;
        let target = bytes(&words[1..]).take(length).collect();
        Some(Node { kind, entries: (words[0] >> 13 & 0x3FF) as u16, target })
    }

    /// How many nodes are used.
    pub fn used_nodes(&self) -> usize {
        (1..=NODE_ROWS as u16).filter(|number| self.node(*number).is_some()).count()
    }

    /// The node to which an entry leads, 0 where it is absent.
    pub fn led_to(&self, place: &Place) -> u16 {
        self.entries().find(|entry| entry.place == *place).map_or(0, |entry| entry.node)
    }

    /// The user of a process, if it is listed.
    pub fn user(&self, process: u16) -> Option<u16> {
        self.processes().find(|row| row.number == process).map(|row| row.user)
    }

    /// The path of a directory without links, found by going up from it; nothing where no way leads
    /// to `/`.
    pub fn path_of_directory(&self, directory: u16) -> Option<Vec<u8>> {
        let mut path = Vec::new();
        let mut at = directory;
        for _ in 0..NODE_ROWS {
            if at == START {
                return Some(if path.is_empty() { b"/".to_vec() } else { path });
            }
            let entry = self.entries().find(|entry| entry.node == at)?;
            path = [b"/", &entry.place.name[..], &path].concat();
            at = entry.place.directory;
        }
        None
    }

    /// The path of an entry without links, present or absent.
    pub fn path_of(&self, place: &Place) -> Option<Vec<u8>> {
        let directory = self.path_of_directory(place.directory)?;
        let slash: &[u8] = if directory == b"/" { b"" } else { b"/" };
        Some([&directory, slash, &place.name].concat())
    }

    /// The rows of one table.
    fn rows(
        &self,
        first: usize,
        rows: usize,
        row_words: usize,
    ) -> impl Iterator<Item = &'words [u32]> + 'words {
        let words = self.words.get(first..).unwrap_or_default();
        words.chunks_exact(row_words).take(rows)
    }
}

/// The upper and the lower 16 bits of a word.
fn halves(word: u32) -> (u16, u16) {
    ((word >> 16) as u16, word as u16)
}

/// The bytes of words, most significant first.
fn bytes(words: &[u32]) -> impl Iterator<Item = u8> + '_ {
    words.iter().flat_map(|word| word.to_be_bytes())
}

/// The place of a directory and a name block: a byte of length, and the name's behind it.
pub(crate) fn place(directory: u16, block: &[u32]) -> Place {
    let mut bytes = bytes(block);
    let length = bytes.next().map_or(0, usize::from).min(LONGEST_NAME);
    Place { directory, name: bytes.take(length).collect() }
}
