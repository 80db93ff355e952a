//! Heading 'The lent tables': rows as the bits of the words say, right or wrong.
//! Fields stand most significant bit first, so a word's bytes are in big-endian order.

use crate::limits::*;
use crate::tables::{Entry, Hold, Kind, Node, Process, Role, Tables};

/// A name block as it stands.
#[derive(Clone, Copy, Debug, PartialEq, Eq)]
pub struct PackedName {
    /// The length, 8 bits.
    pub length: u8,
    /// The 14 name bytes, filling among them.
    pub bytes: [u8; NAME_BYTES],
    /// The 8 bits that ought to be zero.
    pub zero_bits: u8,
}

impl PackedName {
    /// Takes a name block out of 4 words.
    fn read(words: &[u32]) -> PackedName {
        let mut block = [0; NAME_WORDS * 4];
        read_bytes(words, &mut block);
        let mut bytes = [0; NAME_BYTES];
        bytes.copy_from_slice(&block[1..=NAME_BYTES]);
        PackedName { length: block[0], bytes, zero_bits: block[NAME_BYTES + 1] }
    }

    /// Puts the name block into 4 words.
    fn write(&self, words: &mut [u32]) {
        let mut block = [0; NAME_WORDS * 4];
        block[0] = self.length;
        block[1..=NAME_BYTES].copy_from_slice(&self.bytes);
        block[NAME_BYTES + 1] = self.zero_bits;
        write_bytes(&block, words);
    }

    /// The block of a name; a name of more than 14 bytes keeps its first 14 and its length.
    pub fn of(name: &[u8]) -> PackedName {
        let mut bytes = [0; NAME_BYTES];
        let kept = name.len().min(NAME_BYTES);
        bytes[..kept].copy_from_slice(&name[..kept]);
        PackedName { length: name.len() as u8, bytes, zero_bits: 0 }
    }

    /// The name itself, as far as its length lies within the 14 bytes.
    pub fn name(&self) -> &[u8] {
        &self.bytes[..usize::from(self.length).min(NAME_BYTES)]
    }

    /// The bytes behind the name.
    pub fn filling(&self) -> &[u8] {
        &self.bytes[usize::from(self.length).min(NAME_BYTES)..]
    }
}

/// An entry row as it stands.
#[derive(Clone, Copy, Debug, PartialEq, Eq)]
pub struct PackedEntry {
    /// The node of the directory; a free row has none, which is 0.
    pub directory: u16,
    /// The node led to, 16 bits.
    pub node: u16,
    /// The name block.
    pub name: PackedName,
}

/// A node row as it stands.
#[derive(Clone, Copy, Debug, PartialEq, Eq)]
pub struct PackedNode {
    /// What the node is, in 2 bits; nothing, which is 0, where the row is free.
    pub kind: u32,
    /// How long the target is, in 7 bits.
    pub target_length: u32,
    /// How many entries lead to it, in 10 bits.
    pub entries: u32,
    /// The 13 bits that ought to be zero.
    pub zero_bits: u32,
    /// The 64 target bytes, filling among them.
    pub target: [u8; TARGET_BYTES],
}

impl PackedNode {
    /// The target's length as far as it lies within the 64 bytes.
    fn kept(&self) -> usize {
        (self.target_length as usize).min(TARGET_BYTES)
    }

    /// The bytes behind the target.
    pub fn filling(&self) -> &[u8] {
        &self.target[self.kept()..]
    }

    /// The target, if its length is within the 64 bytes.
    pub fn whole_target(&self) -> Option<&[u8]> {
        self.target.get(..self.target_length as usize)
    }
}

/// A hold row as it stands.
#[derive(Clone, Copy, Debug, PartialEq, Eq)]
pub struct PackedHold {
    /// The node of the directory; a free row has none, which is 0.
    pub directory: u16,
    /// The process, 16 bits.
    pub process: u16,
    /// The name block.
    pub name: PackedName,
    /// The role, 2 bits.
    pub role: u32,
    /// The 30 bits that ought to be zero.
    pub zero_bits: u32,
}

/// A process row as it stands.
#[derive(Clone, Copy, Debug, PartialEq, Eq)]
pub struct PackedProcess {
    /// The number of the process; a free row has none, which is 0.
    pub process: u16,
    /// The user, 16 bits.
    pub user: u16,
}

/// All rows as they stand.
#[derive(Clone, Debug, PartialEq, Eq)]
pub struct PackedTables {
    /// 512 rows.
    pub entries: Vec<PackedEntry>,
    /// 256 rows.
    pub nodes: Vec<PackedNode>,
    /// 256 rows.
    pub holds: Vec<PackedHold>,
    /// 64 rows.
    pub processes: Vec<PackedProcess>,
}

/// The value of the kind field for a file.
pub const FILE: u32 = 1;
/// The value of the kind field for a directory.
pub const DIRECTORY: u32 = 2;
/// The value of the kind field for a link.
pub const LINK: u32 = 3;
/// The value of the role field for an end hold.
pub const END: u32 = 1;
/// The value of the role field for an element hold.
pub const ELEMENT: u32 = 2;

/// Takes the bytes of words in the order of their bits.
fn read_bytes(words: &[u32], bytes: &mut [u8]) {
    for (word, four) in words.iter().zip(bytes.chunks_exact_mut(4)) {
        four.copy_from_slice(&word.to_be_bytes());
    }
}

/// Puts bytes into words in the order of their bits.
fn write_bytes(bytes: &[u8], words: &mut [u32]) {
    for (word, four) in words.iter_mut().zip(bytes.chunks_exact(4)) {
        *word = four.iter().fold(0, |bits, byte| bits << 8 | u32::from(*byte));
    }
}

/// The upper and lower 16 bits of a word.
fn halves(word: u32) -> (u16, u16) {
    ((word >> 16) as u16, word as u16)
}

/// The word of an upper and a lower half.
fn joined(upper: u16, lower: u16) -> u32 {
    u32::from(upper) << 16 | u32::from(lower)
}

/// Takes an entry row out of its 5 words.
fn read_entry(words: &[u32]) -> PackedEntry {
    let (directory, node) = halves(words[0]);
    PackedEntry { directory, node, name: PackedName::read(&words[1..ENTRY_WORDS]) }
}

/// Takes a node row out of its 17 words.
fn read_node(words: &[u32]) -> PackedNode {
    let mut target = [0; TARGET_BYTES];
    read_bytes(&words[1..NODE_WORDS], &mut target);
    PackedNode {
        kind: words[0] >> 30,
        target_length: words[0] >> 23 & 0x7F,
        entries: words[0] >> 13 & 0x3FF,
        zero_bits: words[0] & 0x1FFF,
        target,
    }
}

/// Takes a hold row out of its 6 words.
fn read_hold(words: &[u32]) -> PackedHold {
    let (directory, process) = halves(words[0]);
    let name = PackedName::read(&words[1..=NAME_WORDS]);
    let last = words[HOLD_WORDS - 1];
    PackedHold { directory, process, name, role: last >> 30, zero_bits: last & 0x3FFF_FFFF }
}

/// Takes a process row out of its word.
fn read_process(words: &[u32]) -> PackedProcess {
    let (process, user) = halves(words[0]);
    PackedProcess { process, user }
}

/// Puts an entry row into its 5 words.
fn write_entry(entry: &PackedEntry, words: &mut [u32]) {
    words[0] = joined(entry.directory, entry.node);
    entry.name.write(&mut words[1..]);
}

/// Puts a node row into its 17 words.
fn write_node(node: &PackedNode, words: &mut [u32]) {
    words[0] = node.kind << 30 | node.target_length << 23 | node.entries << 13 | node.zero_bits;
    write_bytes(&node.target, &mut words[1..]);
}

/// Puts a hold row into its 6 words.
fn write_hold(hold: &PackedHold, words: &mut [u32]) {
    words[0] = joined(hold.directory, hold.process);
    hold.name.write(&mut words[1..=NAME_WORDS]);
    words[HOLD_WORDS - 1] = hold.role << 30 | hold.zero_bits;
}

/// Takes all rows of one table, each of some words, out of the slice.
fn read_rows<Row>(
    words: &[u32],
    first: usize,
    rows: usize,
    row_words: usize,
    read: fn(&[u32]) -> Row,
) -> Vec<Row> {
    words[first..first + rows * row_words].chunks_exact(row_words).map(read).collect()
}

impl PackedTables {
    /// All rows of a slice; nothing if it hasn't 8,512 words.
    pub fn read(words: &[u32]) -> Option<PackedTables> {
        if words.len() != WORDS {
            return None;
        }
        Some(PackedTables {
            entries: read_rows(words, ENTRY_FIRST, ENTRY_ROWS, ENTRY_WORDS, read_entry),
            nodes: read_rows(words, NODE_FIRST, NODE_ROWS, NODE_WORDS, read_node),
            holds: read_rows(words, HOLD_FIRST, HOLD_ROWS, HOLD_WORDS, read_hold),
            processes: read_rows(words, PROCESS_FIRST, PROCESS_ROWS, PROCESS_WORDS, read_process),
        })
    }

    /// The slice of all rows.
    pub fn words(&self) -> Vec<u32> {
        let mut words = vec![0; WORDS];
        let (entries, rest) = words.split_at_mut(NODE_FIRST);
        let (nodes, rest) = rest.split_at_mut(HOLD_FIRST - NODE_FIRST);
        let (holds, processes) = rest.split_at_mut(PROCESS_FIRST - HOLD_FIRST);
        for (entry, place) in self.entries.iter().zip(entries.chunks_exact_mut(ENTRY_WORDS)) {
            write_entry(entry, place);
        }
        for (node, place) in self.nodes.iter().zip(nodes.chunks_exact_mut(NODE_WORDS)) {
            write_node(node, place);
        }
        for (hold, place) in self.holds.iter().zip(holds.chunks_exact_mut(HOLD_WORDS)) {
            write_hold(hold, place);
        }
        for (process, place) in self.processes.iter().zip(processes) {
            *place = joined(process.process, process.user);
        }
        words
    }

    /// The bits of plain rows.
    pub fn from_tables(tables: &Tables) -> PackedTables {
        PackedTables {
            entries: tables.entries.iter().map(|row| pack_entry(row.as_ref())).collect(),
            nodes: tables.nodes.iter().map(|row| pack_node(row.as_ref())).collect(),
            holds: tables.holds.iter().map(|row| pack_hold(row.as_ref())).collect(),
            processes: tables.processes.iter().map(|row| pack_process(row.as_ref())).collect(),
        }
    }

    /// Plain rows of sound bits; nothing where a role or target has no plain row.
    pub fn to_tables(&self) -> Option<Tables> {
        Some(Tables {
            entries: self.entries.iter().map(plain_entry).collect(),
            nodes: self.nodes.iter().map(plain_node).collect::<Option<_>>()?,
            holds: self.holds.iter().map(plain_hold).collect::<Option<_>>()?,
            processes: self.processes.iter().map(plain_process).collect(),
        })
    }
}

/// The bits of an entry row; zeros for a free one.
fn pack_entry(row: Option<&Entry>) -> PackedEntry {
    match row {
        None => PackedEntry { directory: 0, node: 0, name: PackedName::of(b"") },
        Some(entry) => PackedEntry {
            directory: entry.directory,
            node: entry.node,
            name: PackedName::of(&entry.name),
        },
    }
}

/// The bits of a node row; zeros for a free one.
fn pack_node(row: Option<&Node>) -> PackedNode {
    let mut target = [0; TARGET_BYTES];
    let Some(node) = row else {
        return PackedNode { kind: 0, target_length: 0, entries: 0, zero_bits: 0, target };
    };
    let kept = node.target.len().min(TARGET_BYTES);
    target[..kept].copy_from_slice(&node.target[..kept]);
    let kind = match node.kind {
        Kind::File => FILE,
        Kind::Directory => DIRECTORY,
        Kind::Link => LINK,
    };
    let target_length = node.target.len() as u32;
    PackedNode { kind, target_length, entries: u32::from(node.entries), zero_bits: 0, target }
}

/// The bits of a hold row; zeros for a free one.
fn pack_hold(row: Option<&Hold>) -> PackedHold {
    let Some(hold) = row else {
        let name = PackedName::of(b"");
        return PackedHold { directory: 0, process: 0, name, role: 0, zero_bits: 0 };
    };
    let role = match hold.role {
        Role::End => END,
        Role::Element => ELEMENT,
    };
    let name = PackedName::of(&hold.name);
    PackedHold { directory: hold.directory, process: hold.process, name, role, zero_bits: 0 }
}

/// The bits of a process row; zeros for a free one.
fn pack_process(row: Option<&Process>) -> PackedProcess {
    match row {
        None => PackedProcess { process: 0, user: 0 },
        Some(row) => PackedProcess { process: row.process, user: row.user },
    }
}

/// The plain row of an entry's bits.
fn plain_entry(entry: &PackedEntry) -> Option<Entry> {
    (entry.directory != 0).then(|| Entry {
        directory: entry.directory,
        name: entry.name.name().to_vec(),
        node: entry.node,
    })
}

/// The plain row of a node's bits; outer nothing where the target is too long.
fn plain_node(node: &PackedNode) -> Option<Option<Node>> {
    let kind = match node.kind {
        FILE => Kind::File,
        DIRECTORY => Kind::Directory,
        LINK => Kind::Link,
        _ => return Some(None),
    };
    let target = node.whole_target()?.to_vec();
    Some(Some(Node { kind, entries: node.entries as u16, target }))
}

/// The plain row of a hold's bits; outer nothing where the role is none.
fn plain_hold(hold: &PackedHold) -> Option<Option<Hold>> {
    if hold.directory == 0 {
        return Some(None);
    }
    let role = match hold.role {
        END => Role::End,
        ELEMENT => Role::Element,
        _ => return None,
    };
    let name = hold.name.name().to_vec();
    Some(Some(Hold { directory: hold.directory, name, process: hold.process, role }))
}

/// The plain row of a process's bits.
fn plain_process(row: &PackedProcess) -> Option<Process> {
    (row.process != 0).then_some(Process { process: row.process, user: row.user })
}
