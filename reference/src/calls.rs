//! Heading 'The thirteen calls', with the tests 4 to 16 of 'Numbers given back'.

use crate::holds::{self, Caller};
use crate::limits::ABSENCE;
use crate::numbers::*;
use crate::records::{Call, CallName};
use crate::tables::{lowest_free, DirectoryAndName, Entry, Kind, Node, Process, Tables};
use crate::walk::{walk, Goal};

/// Answers an accepted record; a refusal has changed nothing.
pub fn answer(tables: &mut Tables, call: &Call) -> Answer {
    accepted(tables, call).unwrap_or_else(Answer::Refused)
}

/// The call's success, or the number of its refusal. An entering process has the user of its
/// argument; test 4 asks any other for its row.
fn accepted(tables: &mut Tables, call: &Call) -> Result<Answer, u32> {
    let user = match call.name {
        CallName::Enter => call.argument,
        _ => tables.user(call.process).ok_or(NOT_LISTED)?,
    };
    let caller = Caller { process: call.process, user };
    let path = &call.path1;
    match call.name {
        CallName::Enter => enter(tables, caller),
        CallName::Fork => fork(tables, caller, call.argument),
        CallName::Exec => Ok(exec(tables, caller)),
        CallName::Exit => Ok(exit(tables, caller)),
        CallName::Check => guard(tables, caller, walk(tables, path, true)?),
        CallName::Look => guard(tables, caller, walk(tables, path, false)?),
        CallName::Use => use_path(tables, caller, path),
        CallName::Create => create(tables, caller, path, Kind::File, b""),
        CallName::Mkdir => create(tables, caller, path, Kind::Directory, b""),
        CallName::Symlink => create(tables, caller, path, Kind::Link, &call.path2),
        CallName::Link => link(tables, caller, path, &call.path2),
        CallName::Unlink => unlink(tables, caller, path),
        CallName::Rmdir => rmdir(tables, caller, path),
    }
}

/// The lowest free process row for a process that isn't listed yet: tests 5 and 6.
fn row_for_process(tables: &Tables, process: u16) -> Result<usize, u32> {
    if tables.user(process).is_some() {
        return Err(ALREADY_LISTED);
    }
    lowest_free(&tables.processes).ok_or(NO_PROCESS_ROW)
}

/// Call 1 lists the process with its user.
fn enter(tables: &mut Tables, caller: Caller) -> Result<Answer, u32> {
    let row = row_for_process(tables, caller.process)?;
    tables.processes[row] = Some(Process { process: caller.process, user: caller.user });
    Ok(Answer::Done(u32::from(caller.process)))
}

/// Call 2 lists the child with the parent's user and copies of its holds.
fn fork(tables: &mut Tables, caller: Caller, child: u16) -> Result<Answer, u32> {
    let row = row_for_process(tables, child)?;
    let copies = holds::copies_for_child(tables, caller.process, child);
    let copies = holds::fits(tables, copies)?;
    tables.processes[row] = Some(Process { process: child, user: caller.user });
    holds::add(tables, copies);
    Ok(Answer::Done(u32::from(child)))
}

/// Call 3 drops the caller's holds.
fn exec(tables: &mut Tables, caller: Caller) -> Answer {
    holds::drop_of_process(tables, caller.process);
    Answer::Done(u32::from(caller.process))
}

/// Call 4 drops the caller's holds and the caller.
fn exit(tables: &mut Tables, caller: Caller) -> Answer {
    holds::drop_of_process(tables, caller.process);
    for row in &mut tables.processes {
        if row.as_ref().is_some_and(|listed| listed.process == caller.process) {
            *row = None;
        }
    }
    Answer::Done(u32::from(caller.process))
}

/// Calls 5 to 7 behind their walk: seen, or held with the holds the process lacks.
fn guard(tables: &mut Tables, caller: Caller, goal: Goal) -> Result<Answer, u32> {
    if holds::only_seen(tables, caller, goal.end.as_ref()) {
        return Ok(Answer::Seen(u32::from(goal.node)));
    }
    let new = holds::needed(tables, caller, &goal)?;
    if let Some(end) = &goal.end {
        holds::drop_ends_for_root(tables, caller, end);
    }
    holds::add(tables, new);
    Ok(Answer::Held(u32::from(goal.node)))
}

/// Call 7 is a check that refuses an absence.
fn use_path(tables: &mut Tables, caller: Caller, path: &[u8]) -> Result<Answer, u32> {
    let goal = walk(tables, path, true)?;
    if goal.node == ABSENCE {
        return Err(ABSENT);
    }
    guard(tables, caller, goal)
}

/// Test 11: the absent end entry at which a creation takes place.
fn absent_end(goal: &Goal) -> Result<DirectoryAndName, u32> {
    match &goal.end {
        Some(end) if goal.node == ABSENCE => Ok(end.clone()),
        _ => Err(PRESENT),
    }
}

/// Calls 8 to 10: a new node of the kind and an entry that leads to it.
fn create(
    tables: &mut Tables,
    caller: Caller,
    path: &[u8],
    kind: Kind,
    target: &[u8],
) -> Result<Answer, u32> {
    let goal = walk(tables, path, false)?;
    let end = absent_end(&goal)?;
    if holds::stopped_at(tables, caller, &end) {
        return Err(HELD_BY_ANOTHER);
    }
    let entry_row = lowest_free(&tables.entries).ok_or(NO_NAME_ROW)?;
    let node_row = lowest_free(&tables.nodes).ok_or(NO_NAME_ROW)?;
    let new = holds::needed(tables, caller, &goal)?;
    let node = node_row as u16 + 1;
    tables.nodes[node_row] = Some(Node { kind, entries: 1, target: target.to_vec() });
    holds::drop_all_for_root(tables, caller, &end);
    holds::add(tables, new);
    let (directory, name) = end;
    tables.entries[entry_row] = Some(Entry { directory, name, node });
    Ok(Answer::Done(u32::from(node)))
}

/// Call 11: a new entry that leads to the old path's node; holds on path 1 only.
fn link(
    tables: &mut Tables,
    caller: Caller,
    new_path: &[u8],
    old_path: &[u8],
) -> Result<Answer, u32> {
    let goal = walk(tables, new_path, false)?;
    let old = walk(tables, old_path, false)?;
    if old.node == ABSENCE {
        return Err(ABSENT);
    }
    let end = absent_end(&goal)?;
    if tables.is_directory(old.node) {
        return Err(WRONG_KIND);
    }
    if holds::stopped_at(tables, caller, &end) {
        return Err(HELD_BY_ANOTHER);
    }
    let entry_row = lowest_free(&tables.entries).ok_or(NO_NAME_ROW)?;
    let new = holds::needed(tables, caller, &goal)?;
    holds::drop_all_for_root(tables, caller, &end);
    holds::add(tables, new);
    let (directory, name) = end;
    tables.entries[entry_row] = Some(Entry { directory, name, node: old.node });
    if let Some(node) = &mut tables.nodes[usize::from(old.node) - 1] {
        node.entries += 1;
    }
    Ok(Answer::Done(u32::from(old.node)))
}

/// Clears a present entry, and its node when no other entry leads there.
fn clear_entry(tables: &mut Tables, place: &DirectoryAndName, number: u16) {
    if let Some(row) = tables.entry_row(place.0, &place.1) {
        tables.entries[row] = None;
    }
    let slot = &mut tables.nodes[usize::from(number) - 1];
    if let Some(node) = slot {
        node.entries -= 1;
        if node.entries == 0 {
            *slot = None;
        }
    }
}

/// Tests 10 and 12 of a removal: the present end entry, of a kind the call removes; `/` is a
/// directory that no call removes.
fn removable_end(
    tables: &Tables,
    goal: &Goal,
    wants_directory: bool,
) -> Result<DirectoryAndName, u32> {
    if goal.node == ABSENCE {
        return Err(ABSENT);
    }
    match &goal.end {
        Some(end) if tables.is_directory(goal.node) == wants_directory => Ok(end.clone()),
        _ => Err(WRONG_KIND),
    }
}

/// Call 12 removes an entry that leads to a file or link.
fn unlink(tables: &mut Tables, caller: Caller, path: &[u8]) -> Result<Answer, u32> {
    let goal = walk(tables, path, false)?;
    let end = removable_end(tables, &goal, false)?;
    if holds::stopped_at(tables, caller, &end) {
        return Err(HELD_BY_ANOTHER);
    }
    let new = holds::needed(tables, caller, &goal)?;
    holds::drop_all_for_root(tables, caller, &end);
    holds::add(tables, new);
    clear_entry(tables, &end, goal.node);
    Ok(Answer::Done(u32::from(goal.node)))
}

/// Call 13 removes an empty directory and drops the holds on entries inside it.
fn rmdir(tables: &mut Tables, caller: Caller, path: &[u8]) -> Result<Answer, u32> {
    let goal = walk(tables, path, false)?;
    let end = removable_end(tables, &goal, true)?;
    if tables.has_entries(goal.node) {
        return Err(NOT_EMPTY);
    }
    if holds::stopped_at(tables, caller, &end) || holds::stopped_inside(tables, caller, goal.node) {
        return Err(HELD_BY_ANOTHER);
    }
    let new = holds::needed(tables, caller, &goal)?;
    holds::drop_all_for_root(tables, caller, &end);
    holds::drop_inside(tables, goal.node);
    holds::add(tables, new);
    clear_entry(tables, &end, goal.node);
    Ok(Answer::Done(u32::from(goal.node)))
}
