//! Tables that break exactly one rule of 'Sound tables also have', and tables with flipped bits.

use std::collections::HashSet;

use super::{sound_tables, Random};
use crate::limits::{NAME_BYTES, NODE_ROWS, TARGET_BYTES, WORDS};
use crate::packed::{PackedName, PackedNode, PackedTables, DIRECTORY, END, FILE, LINK};
use crate::sound::{broken_rules, Rule, RULES};
use crate::tables::Tables;

/// Targets that aren't valid.
const BAD_TARGETS: [&[u8]; 7] =
    [b"..", b"/.", b"a//b", b"/a/", b"//", b"a/../b", b"fifteen-bytes--"];
/// Names that aren't valid.
const BAD_NAMES: [&[u8]; 9] = [b"", b".", b"..", b"/", b"a/b", b"\0", b"a\0", b"\0a", b"a/"];

/// A rule that tables of 8,512 words can break: any but that of the length.
pub fn some_breakable(random: &mut Random) -> Rule {
    random.pick(&RULES[1..]).0
}

/// Words that break this rule and no other; for the rule of the length, a slice of another one.
pub fn broken_tables(random: &mut Random, rule: Rule) -> Vec<u32> {
    if rule == Rule::SliceLength {
        let mut words = sound_tables(random).pack();
        words.resize(*random.pick(&[0, 1, WORDS - 1, WORDS + 1]), 0);
        return words;
    }
    loop {
        let mut packed = PackedTables::from_tables(&sound_tables(random));
        if break_rule(random, &mut packed, rule).is_some() {
            let words = packed.words();
            if broken_rules(&words) == [rule] {
                return words;
            }
        }
    }
}

/// Turns so many distinct bits of the words, or all where there are fewer.
pub fn flip_bits(random: &mut Random, words: &mut [u32], count: usize) {
    let bits = words.len() * 32;
    let mut turned = HashSet::new();
    while turned.len() < count.min(bits) {
        let bit = random.below(bits);
        if turned.insert(bit) {
            words[bit / 32] ^= 1 << (bit % 32);
        }
    }
}

/// Tries to break a rule; nothing where the tables have no row for it. What comes out may
/// break others too and is thrown away then.
fn break_rule(random: &mut Random, packed: &mut PackedTables, rule: Rule) -> Option<()> {
    match rule {
        Rule::SliceLength => None,
        Rule::FreeEntryRow | Rule::FreeNodeRow | Rule::FreeHoldRow | Rule::FreeProcessRow => {
            break_free_row(random, packed, rule)
        }
        Rule::NameZeroBits | Rule::NameFilling => break_name_block(random, packed, rule),
        Rule::NodeZeroBits | Rule::TargetFilling | Rule::TargetOfLinkOnly | Rule::TargetValid => {
            break_node(random, packed, rule)
        }
        Rule::EntryDirectory | Rule::EntryNode | Rule::EntriesDistinct | Rule::EntryName => {
            break_entry(random, packed, rule)
        }
        Rule::EntryCount
        | Rule::FirstNodeEntries
        | Rule::DirectoryEntries
        | Rule::FileEntries
        | Rule::LinkEntries => break_count(random, packed, rule),
        Rule::FirstNodeDirectory => break_first_node(random, packed),
        Rule::HoldZeroBits
        | Rule::HoldName
        | Rule::HoldRole
        | Rule::HoldDirectory
        | Rule::HoldProcess
        | Rule::HoldsDistinct
        | Rule::EndHoldsOfOneUser => break_hold(random, packed, rule),
        Rule::ProcessesDistinct => break_processes(random, packed),
    }
}

/// The place of a random row for which the condition is true.
fn some_row<Row>(
    random: &mut Random,
    rows: &[Row],
    condition: impl Fn(&Row) -> bool,
) -> Option<usize> {
    let places: Vec<usize> = (0..rows.len()).filter(|place| condition(&rows[*place])).collect();
    if places.is_empty() {
        return None;
    }
    Some(*random.pick(&places))
}

/// Sets something in a name block that is all zeros.
fn spoil_name(random: &mut Random, name: &mut PackedName) {
    match random.below(3) {
        0 => name.length = random.between(1, 255) as u8,
        1 => name.bytes[random.below(NAME_BYTES)] = random.between(1, 255) as u8,
        _ => name.zero_bits = 1 << random.below(8),
    }
}

/// Sets something in a free row.
fn break_free_row(random: &mut Random, packed: &mut PackedTables, rule: Rule) -> Option<()> {
    let seventh = random.between(1, 127) as u32;
    match rule {
        Rule::FreeEntryRow => {
            let row = some_row(random, &packed.entries, |row| row.directory == 0)?;
            match random.percent(30) {
                true => packed.entries[row].node = random.between(1, 65535) as u16,
                false => spoil_name(random, &mut packed.entries[row].name),
            }
        }
        Rule::FreeNodeRow => {
            let row = some_row(random, &packed.nodes, |row| row.kind == 0)?;
            match random.below(4) {
                0 => packed.nodes[row].target_length = seventh,
                1 => packed.nodes[row].entries = seventh,
                2 => packed.nodes[row].zero_bits = 1 << random.below(13),
                _ => packed.nodes[row].target[random.below(TARGET_BYTES)] = seventh as u8,
            }
        }
        Rule::FreeHoldRow => {
            let row = some_row(random, &packed.holds, |row| row.directory == 0)?;
            match random.below(4) {
                0 => packed.holds[row].process = random.between(1, 65535) as u16,
                1 => packed.holds[row].role = random.between(1, 3) as u32,
                2 => packed.holds[row].zero_bits = 1 << random.below(30),
                _ => spoil_name(random, &mut packed.holds[row].name),
            }
        }
        _ => {
            let row = some_row(random, &packed.processes, |row| row.process == 0)?;
            packed.processes[row].user = random.between(1, 65535) as u16;
        }
    }
    Some(())
}

/// Sets zero bits or filling in the name block of a used entry or hold.
fn break_name_block(random: &mut Random, packed: &mut PackedTables, rule: Rule) -> Option<()> {
    let name = if random.percent(50) {
        let row = some_row(random, &packed.entries, |row| row.directory != 0)?;
        &mut packed.entries[row].name
    } else {
        let row = some_row(random, &packed.holds, |row| row.directory != 0)?;
        &mut packed.holds[row].name
    };
    let length = usize::from(name.length);
    if rule == Rule::NameZeroBits {
        name.zero_bits = 1 << random.below(8);
    } else if length < NAME_BYTES {
        name.bytes[random.between(length, NAME_BYTES - 1)] = random.between(1, 255) as u8;
    }
    Some(())
}

/// Breaks a rule of a single used node.
fn break_node(random: &mut Random, packed: &mut PackedTables, rule: Rule) -> Option<()> {
    let link = rule == Rule::TargetValid;
    let other = rule == Rule::TargetOfLinkOnly;
    let row = some_row(random, &packed.nodes, |node| {
        node.kind != 0 && (!link || node.kind == LINK) && (!other || node.kind != LINK)
    })?;
    let node = &mut packed.nodes[row];
    let length = node.target_length as usize;
    match rule {
        Rule::NodeZeroBits => node.zero_bits = 1 << random.below(13),
        Rule::TargetFilling if length < TARGET_BYTES => {
            node.target[random.between(length, TARGET_BYTES - 1)] = random.between(1, 255) as u8;
        }
        Rule::TargetOfLinkOnly => {
            node.target_length = random.between(1, 127) as u32;
            if random.percent(50) {
                node.target[0] = b'a';
            }
        }
        _ => break_target(random, node),
    }
    Some(())
}

/// Makes a link's target invalid: empty, too long, or of bad bytes.
fn break_target(random: &mut Random, node: &mut PackedNode) {
    let length = node.target_length as usize;
    match random.below(4) {
        0 => {
            node.target_length = 0;
            node.target = [0; TARGET_BYTES];
        }
        1 => {
            node.target_length = random.between(TARGET_BYTES + 1, 127) as u32;
            node.target = [b'a'; TARGET_BYTES];
            for place in (8..TARGET_BYTES).step_by(9) {
                node.target[place] = b'/';
            }
        }
        2 => node.target[random.below(length)] = *random.pick(b"\0/"),
        _ => {
            let bad = random.pick(&BAD_TARGETS);
            node.target = [0; TARGET_BYTES];
            node.target[..bad.len()].copy_from_slice(bad);
            node.target_length = bad.len() as u32;
        }
    }
}

/// A name that isn't valid.
fn bad_name(random: &mut Random) -> PackedName {
    let bad = random.pick(&BAD_NAMES);
    let mut name = PackedName::of(bad);
    if random.percent(25) {
        name = PackedName::of(b"fourteen-bytes");
        name.length = *random.pick(&[15, 16, 64, 128, 255]);
    }
    name
}

/// Breaks a rule of a used entry, or of two.
fn break_entry(random: &mut Random, packed: &mut PackedTables, rule: Rule) -> Option<()> {
    let row = some_row(random, &packed.entries, |row| row.directory != 0)?;
    match rule {
        Rule::EntryDirectory => {
            packed.entries[row].directory =
                number_of_kind(random, packed, |kind| kind != DIRECTORY)?;
        }
        Rule::EntryNode => {
            let free = some_row(random, &packed.entries, |row| row.directory == 0)?;
            packed.entries[free] = packed.entries[row];
            packed.entries[free].name =
                PackedName::of(format!("x{}", random.below(999)).as_bytes());
            let node = number_of_kind(random, packed, |kind| kind == 0);
            packed.entries[free].node = if random.percent(20) { 0 } else { node? };
        }
        Rule::EntriesDistinct => {
            let other = some_row(random, &packed.entries, |row| row.directory != 0)?;
            packed.entries[other].directory = packed.entries[row].directory;
            packed.entries[other].name = packed.entries[row].name;
        }
        _ => packed.entries[row].name = bad_name(random),
    }
    Some(())
}

/// The number of a node of such a kind; where 0 is one, a number above 256 now and then.
fn number_of_kind(
    random: &mut Random,
    packed: &PackedTables,
    condition: impl Fn(u32) -> bool,
) -> Option<u16> {
    if condition(0) && random.percent(40) {
        return Some(*random.pick(&[NODE_ROWS as u16 + 1, 258, 512, 513, 32769, 65535]));
    }
    some_row(random, &packed.nodes, |node| condition(node.kind)).map(|row| row as u16 + 1)
}

/// Breaks a rule of the counts, with entries added or taken away as they must be.
fn break_count(random: &mut Random, packed: &mut PackedTables, rule: Rule) -> Option<()> {
    let kind = match rule {
        Rule::FileEntries => FILE,
        Rule::LinkEntries => LINK,
        _ => DIRECTORY,
    };
    if rule == Rule::EntryCount {
        return break_entry_count(random, packed);
    }
    if rule == Rule::FirstNodeEntries {
        lead_to(random, packed, 1)?;
    } else if rule == Rule::DirectoryEntries && random.percent(50) {
        let row = some_row(random, &packed.nodes, |node| node.kind == DIRECTORY)?;
        lead_to(random, packed, row as u16 + 1)?;
    } else {
        let row = some_row(random, &packed.nodes, |node| node.kind == kind)?;
        let blank = fresh_rows().entries[0];
        for entry in &mut packed.entries {
            if usize::from(entry.node) == row + 1 {
                *entry = blank;
            }
        }
        packed.nodes[row].entries = 0;
    }
    Some(())
}

/// Parts a node's count from the entries that lead to it, by either of them.
fn break_entry_count(random: &mut Random, packed: &mut PackedTables) -> Option<()> {
    let row = some_row(random, &packed.nodes, |node| node.kind != 0)?;
    match random.below(3) {
        0 => packed.nodes[row].entries ^= 1 << random.below(10),
        1 => {
            lead_to(random, packed, row as u16 + 1)?;
            packed.nodes[row].entries -= 1;
        }
        _ => {
            let entry = some_row(random, &packed.entries, |entry| entry.directory != 0)?;
            packed.entries[entry] = fresh_rows().entries[0];
        }
    }
    Some(())
}

/// The rows of fresh tables.
fn fresh_rows() -> PackedTables {
    PackedTables::from_tables(&Tables::fresh())
}

/// Adds an entry that leads to the node, and counts it.
fn lead_to(random: &mut Random, packed: &mut PackedTables, number: u16) -> Option<()> {
    let free = some_row(random, &packed.entries, |row| row.directory == 0)?;
    let directory = number_of_kind(random, packed, |kind| kind == DIRECTORY)?;
    packed.entries[free].directory = directory;
    packed.entries[free].node = number;
    packed.entries[free].name = PackedName::of(format!("x{}", random.below(999)).as_bytes());
    packed.nodes[usize::from(number) - 1].entries += 1;
    Some(())
}

/// Makes node 1 free, a file or a link; what stood in it moves to another directory.
fn break_first_node(random: &mut Random, packed: &mut PackedTables) -> Option<()> {
    let fresh = fresh_rows();
    let kind = *random.pick(&[0, FILE, LINK]);
    packed.nodes[0] = fresh.nodes[1];
    let other = number_of_kind(random, packed, |kind| kind == DIRECTORY);
    for place in 0..packed.entries.len() {
        if packed.entries[place].directory == 1 {
            packed.entries[place].directory = other?;
        }
    }
    for hold in packed.holds.iter_mut().filter(|hold| hold.directory == 1) {
        *hold = fresh.holds[0];
    }
    if kind != 0 {
        packed.nodes[0].kind = kind;
        lead_to(random, packed, 1)?;
    }
    if kind == LINK {
        packed.nodes[0].target_length = 1;
        packed.nodes[0].target[0] = b'/';
    }
    Some(())
}

/// Breaks a rule of a used hold, or of two.
fn break_hold(random: &mut Random, packed: &mut PackedTables, rule: Rule) -> Option<()> {
    let row = some_row(random, &packed.holds, |row| row.directory != 0)?;
    let free = some_row(random, &packed.holds, |row| row.directory == 0);
    match rule {
        Rule::HoldZeroBits => packed.holds[row].zero_bits = 1 << random.below(30),
        Rule::HoldName => packed.holds[row].name = bad_name(random),
        Rule::HoldRole => packed.holds[row].role = *random.pick(&[0, 3]),
        Rule::HoldDirectory => {
            packed.holds[row].directory = number_of_kind(random, packed, |kind| kind != DIRECTORY)?;
        }
        Rule::HoldProcess => {
            packed.holds[row].process =
                if random.percent(20) { 0 } else { random.below(65536) as u16 };
        }
        Rule::HoldsDistinct => packed.holds[free?] = packed.holds[row],
        _ => {
            let process = some_row(random, &packed.processes, |row| row.process != 0)?;
            packed.holds[row].role = END;
            packed.holds[free?] = packed.holds[row];
            packed.holds[free?].process = packed.processes[process].process;
        }
    }
    Some(())
}

/// Lists a process twice, with the same user or another.
fn break_processes(random: &mut Random, packed: &mut PackedTables) -> Option<()> {
    let row = some_row(random, &packed.processes, |row| row.process != 0)?;
    let free = some_row(random, &packed.processes, |row| row.process == 0)?;
    packed.processes[free] = packed.processes[row];
    if random.percent(50) {
        packed.processes[free].user = random.below(65536) as u16;
    }
    Some(())
}
