//! Heading 'Holds': who is stopped by a hold, which holds a call needs, drops and additions.

use crate::limits::ROOT;
use crate::numbers::NO_HOLD_ROW;
use crate::tables::{free_rows, lowest_free, DirectoryAndName, Hold, Role, Tables};
use crate::walk::Goal;

/// The caller: a listed process and its user.
#[derive(Clone, Copy, Debug, PartialEq, Eq)]
pub struct Caller {
    /// The calling process.
    pub process: u16,
    /// Its user.
    pub user: u16,
}

impl Caller {
    /// Whether the caller is root.
    pub fn is_root(&self) -> bool {
        self.user == ROOT
    }
}

/// Whether a hold belongs to a user other than the caller's.
fn of_another_user(tables: &Tables, caller: Caller, hold: &Hold) -> bool {
    tables.user(hold.process) != Some(caller.user)
}

/// Whether another user's end hold makes the caller's check, look or use *seen*; never for
/// root, and never where there is no end entry.
pub fn only_seen(tables: &Tables, caller: Caller, end: Option<&DirectoryAndName>) -> bool {
    let Some(place) = end else {
        return false;
    };
    !caller.is_root()
        && tables.holds.iter().flatten().any(|hold| {
            hold.role == Role::End && hold.stands_on(place) && of_another_user(tables, caller, hold)
        })
}

/// Whether another user's hold of either role on the entry stops a creation or removal there;
/// root is never stopped.
pub fn stopped_at(tables: &Tables, caller: Caller, place: &DirectoryAndName) -> bool {
    !caller.is_root()
        && tables
            .holds
            .iter()
            .flatten()
            .any(|hold| hold.stands_on(place) && of_another_user(tables, caller, hold))
}

/// Whether another user's hold on an entry inside the directory stops its removal; root is
/// never stopped.
pub fn stopped_inside(tables: &Tables, caller: Caller, directory: u16) -> bool {
    !caller.is_root()
        && tables
            .holds
            .iter()
            .flatten()
            .any(|hold| hold.directory == directory && of_another_user(tables, caller, hold))
}

/// The holds a walk asks for that the process lacks, each once: elements in the order met,
/// then the end. Refuses with 16 where more are needed than rows are free now.
pub fn needed(tables: &Tables, caller: Caller, goal: &Goal) -> Result<Vec<Hold>, u32> {
    let elements = goal.elements.iter().map(|place| (place, Role::Element));
    let end = goal.end.iter().map(|place| (place, Role::End));
    let mut lacking: Vec<Hold> = Vec::new();
    for (place, role) in elements.chain(end) {
        let (directory, name) = place.clone();
        let hold = Hold { directory, name, process: caller.process, role };
        if !tables.holds.iter().flatten().any(|row| *row == hold) && !lacking.contains(&hold) {
            lacking.push(hold);
        }
    }
    fits(tables, lacking)
}

/// Passes new holds on, or refuses with 16 where too few rows are free.
pub fn fits(tables: &Tables, new: Vec<Hold>) -> Result<Vec<Hold>, u32> {
    if new.len() > free_rows(&tables.holds) {
        return Err(NO_HOLD_ROW);
    }
    Ok(new)
}

/// Adds holds, each in the lowest free row; there is room for them by `fits`.
pub fn add(tables: &mut Tables, new: Vec<Hold>) {
    for hold in new {
        if let Some(row) = lowest_free(&tables.holds) {
            tables.holds[row] = Some(hold);
        }
    }
}

/// Drops the holds for which the condition is true.
fn drop_if(tables: &mut Tables, condition: impl Fn(&Tables, &Hold) -> bool) {
    for row in 0..tables.holds.len() {
        if tables.holds[row].as_ref().is_some_and(|hold| condition(tables, hold)) {
            tables.holds[row] = None;
        }
    }
}

/// Drops all holds of a process, for exec and exit.
pub fn drop_of_process(tables: &mut Tables, process: u16) {
    drop_if(tables, |_, hold| hold.process == process);
}

/// Drops all holds on entries inside a directory, for rmdir.
pub fn drop_inside(tables: &mut Tables, directory: u16) {
    drop_if(tables, |_, hold| hold.directory == directory);
}

/// Root's check, look or use drops other users' end holds on the end entry; anyone else's
/// drops nothing.
pub fn drop_ends_for_root(tables: &mut Tables, caller: Caller, place: &DirectoryAndName) {
    if caller.is_root() {
        drop_if(tables, |tables, hold| {
            hold.role == Role::End && hold.stands_on(place) && of_another_user(tables, caller, hold)
        });
    }
}

/// Root's creation or removal drops other users' holds of either role on the end entry;
/// anyone else's drops nothing.
pub fn drop_all_for_root(tables: &mut Tables, caller: Caller, place: &DirectoryAndName) {
    if caller.is_root() {
        drop_if(tables, |tables, hold| {
            hold.stands_on(place) && of_another_user(tables, caller, hold)
        });
    }
}

/// The child's copies of the parent's holds, in row order.
pub fn copies_for_child(tables: &Tables, parent: u16, child: u16) -> Vec<Hold> {
    let own = tables.holds.iter().flatten().filter(|hold| hold.process == parent);
    own.map(|hold| Hold { process: child, ..hold.clone() }).collect()
}
