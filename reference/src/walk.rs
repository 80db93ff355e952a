//! Heading 'Walking a path'.

use std::collections::VecDeque;

use crate::limits::{LINKS, START};
use crate::numbers::{NAME_IS_FILE, NAME_MISSING, NINTH_LINK};
use crate::paths::{is_absolute, names};
use crate::tables::{DirectoryAndName, Kind, Tables};

/// Where a walk stopped and what it met.
#[derive(Clone, Debug, PartialEq, Eq)]
pub struct Goal {
    /// The end entry, present or absent; none where the walk stopped at node 1 by `/`.
    pub end: Option<DirectoryAndName>,
    /// The node at the end, 0 for an absence.
    pub node: u16,
    /// The links followed, in the order met and with repeats.
    pub elements: Vec<DirectoryAndName>,
}

/// Walks a valid path from node 1; `follow_last` says whether a link at the last name of the
/// whole walk is followed too. Refuses with 7, 8 or 9 as it meets them.
pub fn walk(tables: &Tables, path: &[u8], follow_last: bool) -> Result<Goal, u32> {
    let mut ahead: VecDeque<Vec<u8>> = names(path).into();
    let mut directory = START;
    let mut elements = Vec::new();
    while let Some(name) = ahead.pop_front() {
        let last = ahead.is_empty();
        let number = tables.node_led_to(directory, &name);
        let node = tables.node(number);
        match node {
            Some(link) if link.kind == Kind::Link && (!last || follow_last) => {
                if elements.len() == LINKS {
                    return Err(NINTH_LINK);
                }
                elements.push((directory, name));
                if is_absolute(&link.target) {
                    directory = START;
                }
                for target_name in names(&link.target).into_iter().rev() {
                    ahead.push_front(target_name);
                }
            }
            _ if last => {
                return Ok(Goal { end: Some((directory, name)), node: number, elements });
            }
            None => return Err(NAME_MISSING),
            Some(file) if file.kind == Kind::File => return Err(NAME_IS_FILE),
            Some(_) => directory = number,
        }
    }
    Ok(Goal { end: None, node: START, elements })
}
