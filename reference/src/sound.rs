//! Heading 'The lent tables', its last paragraph: the rules of sound tables, one by one.

use std::collections::{HashMap, HashSet};
use std::hash::Hash;

use crate::limits::{NAME_BYTES, NODE_ROWS};
use crate::packed::{
    PackedEntry, PackedHold, PackedName, PackedNode, PackedProcess, PackedTables, DIRECTORY,
    ELEMENT, END, FILE, LINK,
};
use crate::paths::{valid_name, valid_target};

/// The rules of sound tables; a case says what is so where the rule is broken.
#[derive(Clone, Copy, Debug, PartialEq, Eq, Hash)]
pub enum Rule {
    /// The slice hasn't 8,512 words.
    SliceLength,
    /// An entry row with directory 0 isn't all zeros.
    FreeEntryRow,
    /// A node row of kind 0 isn't all zeros.
    FreeNodeRow,
    /// A hold row with directory 0 isn't all zeros.
    FreeHoldRow,
    /// A process row with process 0 isn't all zeros.
    FreeProcessRow,
    /// One of the last 8 bits of a name block is set.
    NameZeroBits,
    /// A byte behind a name isn't zero.
    NameFilling,
    /// One of a node's 13 zero bits is set.
    NodeZeroBits,
    /// A byte behind a target isn't zero.
    TargetFilling,
    /// One of a hold's 30 zero bits is set.
    HoldZeroBits,
    /// An entry isn't in a directory node.
    EntryDirectory,
    /// An entry doesn't lead to a used node.
    EntryNode,
    /// Two entries share directory and name.
    EntriesDistinct,
    /// A used node's count isn't that of the entries that lead to it.
    EntryCount,
    /// Node 1 isn't a directory.
    FirstNodeDirectory,
    /// Node 1 is a directory with a count other than 0.
    FirstNodeEntries,
    /// Another directory has a count other than 1.
    DirectoryEntries,
    /// A file has count 0.
    FileEntries,
    /// A link has count 0.
    LinkEntries,
    /// A file or directory has a target.
    TargetOfLinkOnly,
    /// A link's target isn't valid.
    TargetValid,
    /// An entry's name isn't valid.
    EntryName,
    /// A hold's name isn't valid.
    HoldName,
    /// A hold's role is neither end nor element.
    HoldRole,
    /// A hold isn't in a directory node.
    HoldDirectory,
    /// A hold's process isn't listed.
    HoldProcess,
    /// Two holds share directory, name, process and role.
    HoldsDistinct,
    /// Two users have end holds on one directory and name.
    EndHoldsOfOneUser,
    /// Two process rows share their number.
    ProcessesDistinct,
}

use Rule::*;

/// Every rule with its name in text.
pub const RULES: [(Rule, &str); 29] = [
    (SliceLength, "slice-length"),
    (FreeEntryRow, "free-entry-row"),
    (FreeNodeRow, "free-node-row"),
    (FreeHoldRow, "free-hold-row"),
    (FreeProcessRow, "free-process-row"),
    (NameZeroBits, "name-zero-bits"),
    (NameFilling, "name-filling"),
    (NodeZeroBits, "node-zero-bits"),
    (TargetFilling, "target-filling"),
    (HoldZeroBits, "hold-zero-bits"),
    (EntryDirectory, "entry-directory"),
    (EntryNode, "entry-node"),
    (EntriesDistinct, "entries-distinct"),
    (EntryCount, "entry-count"),
    (FirstNodeDirectory, "first-node-directory"),
    (FirstNodeEntries, "first-node-entries"),
    (DirectoryEntries, "directory-entries"),
    (FileEntries, "file-entries"),
    (LinkEntries, "link-entries"),
    (TargetOfLinkOnly, "target-of-link-only"),
    (TargetValid, "target-valid"),
    (EntryName, "entry-name"),
    (HoldName, "hold-name"),
    (HoldRole, "hold-role"),
    (HoldDirectory, "hold-directory"),
    (HoldProcess, "hold-process"),
    (HoldsDistinct, "holds-distinct"),
    (EndHoldsOfOneUser, "end-holds-of-one-user"),
    (ProcessesDistinct, "processes-distinct"),
];

/// Whether the words are sound tables: 8,512 of them, and every rule of the rows is kept.
pub fn sound(words: &[u32]) -> bool {
    PackedTables::read(words).is_some_and(|packed| sound_rows(&packed))
}

/// Whether rows keep every rule.
pub fn sound_rows(packed: &PackedTables) -> bool {
    RULES.iter().all(|(rule, _)| kept(*rule, packed))
}

/// The rules that the words break; for a wrong length that rule alone.
pub fn broken_rules(words: &[u32]) -> Vec<Rule> {
    let Some(packed) = PackedTables::read(words) else {
        return vec![SliceLength];
    };
    let rules = RULES.iter().map(|(rule, _)| *rule);
    rules.filter(|rule| !kept(*rule, &packed)).collect()
}

/// Whether rows keep one rule; rows read from words have kept the rule of length.
fn kept(rule: Rule, tables: &PackedTables) -> bool {
    match rule {
        SliceLength => true,
        FreeEntryRow | FreeNodeRow | FreeHoldRow | FreeProcessRow => free_rows_kept(rule, tables),
        NameZeroBits => names(tables).all(|name| name.zero_bits == 0),
        NameFilling => names(tables).all(|name| zeros(name.filling())),
        NodeZeroBits => nodes(tables).all(|(_, node)| node.zero_bits == 0),
        TargetFilling => nodes(tables).all(|(_, node)| zeros(node.filling())),
        HoldZeroBits => holds(tables).all(|hold| hold.zero_bits == 0),
        EntryDirectory => entries(tables).all(|entry| kind(tables, entry.directory) == DIRECTORY),
        EntryNode => entries(tables).all(|entry| kind(tables, entry.node) != 0),
        EntriesDistinct => all_distinct(entries(tables).map(|row| (row.directory, key(&row.name)))),
        EntryCount => {
            let leading = leading(tables);
            nodes(tables).all(|(number, node)| node.entries == leading[usize::from(number)])
        }
        FirstNodeDirectory => kind(tables, 1) == DIRECTORY,
        FirstNodeEntries => {
            directories(tables).all(|(number, node)| number != 1 || node.entries == 0)
        }
        DirectoryEntries => {
            directories(tables).all(|(number, node)| number == 1 || node.entries == 1)
        }
        FileEntries => nodes(tables).all(|(_, node)| node.kind != FILE || node.entries >= 1),
        LinkEntries => nodes(tables).all(|(_, node)| node.kind != LINK || node.entries >= 1),
        TargetOfLinkOnly => {
            nodes(tables).all(|(_, node)| node.kind == LINK || node.target_length == 0)
        }
        TargetValid => nodes(tables).all(|(_, node)| node.kind != LINK || target_valid(node)),
        EntryName => entries(tables).all(|entry| name_valid(&entry.name)),
        HoldName => holds(tables).all(|hold| name_valid(&hold.name)),
        HoldRole => holds(tables).all(|hold| hold.role == END || hold.role == ELEMENT),
        HoldDirectory => holds(tables).all(|hold| kind(tables, hold.directory) == DIRECTORY),
        HoldProcess => holds(tables).all(|hold| user(tables, hold.process).is_some()),
        HoldsDistinct => all_distinct(holds(tables).map(|row| (place(row), row.process, row.role))),
        EndHoldsOfOneUser => end_holds_of_one_user(tables),
        ProcessesDistinct => all_distinct(processes(tables).map(|row| row.process)),
    }
}

/// The rule that free rows of one table are all zeros.
fn free_rows_kept(rule: Rule, tables: &PackedTables) -> bool {
    match rule {
        FreeEntryRow => tables.entries.iter().all(|row| row.directory != 0 || empty_entry(row)),
        FreeNodeRow => tables.nodes.iter().all(|row| row.kind != 0 || empty_node(row)),
        FreeHoldRow => tables.holds.iter().all(|row| row.directory != 0 || empty_hold(row)),
        _ => tables.processes.iter().all(|row| row.process != 0 || row.user == 0),
    }
}

/// Whether all bytes are zero.
fn zeros(bytes: &[u8]) -> bool {
    bytes.iter().all(|byte| *byte == 0)
}

/// Whether a name block is all zeros.
fn empty_name(name: &PackedName) -> bool {
    name.length == 0 && zeros(&name.bytes) && name.zero_bits == 0
}

/// Whether an entry row is all zeros but for its directory.
fn empty_entry(row: &PackedEntry) -> bool {
    row.node == 0 && empty_name(&row.name)
}

/// Whether a node row is all zeros but for its kind.
fn empty_node(row: &PackedNode) -> bool {
    row.target_length == 0 && row.entries == 0 && row.zero_bits == 0 && zeros(&row.target)
}

/// Whether a hold row is all zeros but for its directory.
fn empty_hold(row: &PackedHold) -> bool {
    row.process == 0 && empty_name(&row.name) && row.role == 0 && row.zero_bits == 0
}

/// The used entry rows.
fn entries(tables: &PackedTables) -> impl Iterator<Item = &PackedEntry> {
    tables.entries.iter().filter(|entry| entry.directory != 0)
}

/// The used nodes with their numbers.
fn nodes(tables: &PackedTables) -> impl Iterator<Item = (u16, &PackedNode)> {
    (1..).zip(&tables.nodes).filter(|(_, node)| node.kind != 0)
}

/// The directory nodes with their numbers.
fn directories(tables: &PackedTables) -> impl Iterator<Item = (u16, &PackedNode)> {
    nodes(tables).filter(|(_, node)| node.kind == DIRECTORY)
}

/// The used hold rows.
fn holds(tables: &PackedTables) -> impl Iterator<Item = &PackedHold> {
    tables.holds.iter().filter(|hold| hold.directory != 0)
}

/// The used process rows.
fn processes(tables: &PackedTables) -> impl Iterator<Item = &PackedProcess> {
    tables.processes.iter().filter(|process| process.process != 0)
}

/// The names of all used entries and holds.
fn names(tables: &PackedTables) -> impl Iterator<Item = &PackedName> {
    entries(tables).map(|entry| &entry.name).chain(holds(tables).map(|hold| &hold.name))
}

/// The kind of a node number; 0 for a free node and for a number without a row.
fn kind(tables: &PackedTables, number: u16) -> u32 {
    let row = usize::from(number).checked_sub(1);
    row.and_then(|row| tables.nodes.get(row)).map_or(0, |node| node.kind)
}

/// How many entries lead to each node number.
fn leading(tables: &PackedTables) -> [u32; NODE_ROWS + 1] {
    let mut counts = [0; NODE_ROWS + 1];
    for entry in entries(tables) {
        if let Some(count) = counts.get_mut(usize::from(entry.node)) {
            *count += 1;
        }
    }
    counts
}

/// The user of a listed process.
fn user(tables: &PackedTables, process: u16) -> Option<u16> {
    processes(tables).find(|row| row.process == process).map(|row| row.user)
}

/// Whether a name block has a valid name.
fn name_valid(name: &PackedName) -> bool {
    usize::from(name.length) <= NAME_BYTES && valid_name(name.name())
}

/// Whether a node has a valid target.
fn target_valid(node: &PackedNode) -> bool {
    node.whole_target().is_some_and(valid_target)
}

/// What tells two name blocks apart: the length and the name.
fn key(name: &PackedName) -> (u8, &[u8]) {
    (name.length, name.name())
}

/// The directory and name on which a hold stands.
fn place(hold: &PackedHold) -> (u16, (u8, &[u8])) {
    (hold.directory, key(&hold.name))
}

/// Whether no two of them are the same.
fn all_distinct<Key: Eq + Hash>(keys: impl Iterator<Item = Key>) -> bool {
    let mut met = HashSet::new();
    let mut keys = keys;
    keys.all(|key| met.insert(key))
}

/// Whether end holds on one directory and name have one user; unlisted processes have none.
fn end_holds_of_one_user(tables: &PackedTables) -> bool {
    let mut users = HashMap::new();
    let mut with_user = holds(tables)
        .filter(|hold| hold.role == END)
        .filter_map(|hold| Some((hold, user(tables, hold.process)?)));
    with_user.all(|(hold, owner)| *users.entry(place(hold)).or_insert(owner) == owner)
}
