//! The reasons of refusals, as specific as the tables allow. Where nothing more is found, the
//! refusal's short text is told.

use tickbutton::limits::{HEAD, MOST_LINKS};
use tickbutton::tables::{Hold, Place, Role, Tables};
use tickbutton::tables::{ENTRY_ROWS, HOLD_ROWS, NODE_ROWS, PROCESS_ROWS};
use tickbutton::{shown, Call, Refusal};

use crate::paths::{path_fault, target_fault};
use crate::trail::{follow, Stop, Trail};
use crate::wording;

/// Why a call was refused.
pub fn reason(tables: &Tables<'_>, call: &Call, refusal: Refusal) -> String {
    let found = match refusal {
        Refusal::BadField => bad_field(call),
        Refusal::BadPath => bad_path(call),
        Refusal::NotListed => {
            Some(format!("process {} is not listed; it must enter first", call.process()))
        }
        Refusal::AlreadyListed => already_listed(tables, call),
        Refusal::NoProcessRow => Some(format!("all {PROCESS_ROWS} places for processes are taken")),
        Refusal::NinthLink | Refusal::NameMissing | Refusal::NameIsFile => stopped(tables, call),
        Refusal::Absent => absent(tables, call),
        Refusal::Present => present(tables, call),
        Refusal::WrongKind => wrong_kind(tables, call),
        Refusal::NotEmpty => not_empty(tables, call),
        Refusal::HeldByAnother => held(tables, call),
        Refusal::NoNameRow => Some(no_name_row(tables)),
        Refusal::NoHoldRow => no_hold_row(tables, call),
        _ => None,
    };
    found.unwrap_or_else(|| refusal.to_string())
}

/// The way of a call's path 1, as the call walks it.
pub fn trail(tables: &Tables<'_>, call: &Call) -> Option<Trail> {
    let last_too = matches!(call, Call::Check { .. } | Call::Use { .. });
    Some(follow(tables, call.path()?, last_too))
}

/// The way of link's old path.
fn old_trail(tables: &Tables<'_>, call: &Call) -> Option<Trail> {
    match call {
        Call::Link { old, .. } => Some(follow(tables, old, false)),
        _ => None,
    }
}

/// The number that is not allowed.
fn bad_field(call: &Call) -> Option<String> {
    match call {
        _ if call.process() == 0 => Some("0 is no number of a process".to_string()),
        Call::Fork { child: 0, .. } => Some("0 is no number of a child".to_string()),
        _ => None,
    }
}

/// What is wrong with path 1 or path 2.
fn bad_path(call: &Call) -> Option<String> {
    path_fault(call.path()?).or_else(|| match call {
        Call::Symlink { target, .. } => target_fault(target),
        Call::Link { old, .. } => path_fault(old),
        _ => None,
    })
}

/// The process that is listed already.
fn already_listed(tables: &Tables<'_>, call: &Call) -> Option<String> {
    let process = match call {
        Call::Enter { process, .. } => *process,
        Call::Fork { child, .. } => *child,
        _ => return None,
    };
    Some(format!("{} is listed already", wording::process(tables, process)))
}

/// Where a walk stopped before its end, path 1's first.
fn stopped(tables: &Tables<'_>, call: &Call) -> Option<String> {
    let first = trail(tables, call).and_then(|trail| stop_reason(tables, &trail));
    first.or_else(|| stop_reason(tables, &old_trail(tables, call)?))
}

/// Why a walk stopped before its end, if it did.
fn stop_reason(tables: &Tables<'_>, trail: &Trail) -> Option<String> {
    match &trail.stop {
        Stop::NinthLink(place) => {
            let links = wording::paths(tables, trail.links_once());
            let ninth = wording::path(tables, place);
            Some(format!(
                "the path leads through {links}, and after {MOST_LINKS} links comes another, {ninth}"
            ))
        }
        Stop::Missing(place) => Some(format!("there is no {}", wording::path(tables, place))),
        Stop::IsFile(place) => {
            Some(format!("{} is a file, so nothing is inside it", wording::path(tables, place)))
        }
        Stop::AtRoot | Stop::AtEnd(..) => None,
    }
}

/// What is absent: path 1, or link's old path.
fn absent(tables: &Tables<'_>, call: &Call) -> Option<String> {
    let trail = old_trail(tables, call).or_else(|| trail(tables, call))?;
    let (place, _) = trail.end().filter(|(_, node)| *node == 0)?;
    Some(format!("there is no {}", wording::path(tables, place)))
}

/// What is there already.
fn present(tables: &Tables<'_>, call: &Call) -> Option<String> {
    let trail = trail(tables, call)?;
    match trail.end() {
        None => Some("/ is there always".to_string()),
        Some((place, node)) => {
            let kind = wording::kind(tables, node);
            Some(format!("{} is there already, {kind}", wording::path(tables, place)))
        }
    }
}

/// What is of another kind than the call takes.
fn wrong_kind(tables: &Tables<'_>, call: &Call) -> Option<String> {
    let trail = old_trail(tables, call).or_else(|| trail(tables, call))?;
    let Some((place, node)) = trail.end() else {
        return Some("/ cannot be removed, nor have a second name".to_string());
    };
    let (path, kind) = (wording::path(tables, place), wording::kind(tables, node));
    Some(match call {
        Call::Rmdir { .. } => format!("{path} is {kind}, and rmdir removes directories"),
        Call::Link { .. } => format!("{path} is {kind}, and those have one name only"),
        _ => format!("{path} is {kind}, and unlink removes files and links"),
    })
}

/// What stands in the directory.
fn not_empty(tables: &Tables<'_>, call: &Call) -> Option<String> {
    let (place, directory) =
        trail(tables, call)?.end().map(|(place, node)| (place.clone(), node))?;
    let inside: Vec<_> =
        tables.entries().filter(|entry| entry.place.directory == directory).collect();
    let first = shown(&inside.first()?.place.name);
    let path = wording::path(tables, &place);
    Some(match inside.len() {
        1 => format!("{first} is in {path}"),
        more => format!("{first} and {} more are in {path}", more - 1),
    })
}

/// Whose holds are in the way: on the entry, or inside the directory to be removed.
fn held(tables: &Tables<'_>, call: &Call) -> Option<String> {
    let trail = trail(tables, call)?;
    let (place, node) = trail.end()?;
    let inside = matches!(call, Call::Rmdir { .. });
    let blocks = |hold: &Hold| hold.place == *place || inside && hold.place.directory == node;
    let blocking = foreign(tables, call.process(), blocks);
    let first = wording::hold(tables, blocking.first()?);
    Some(match blocking.len() {
        1 => first,
        more => format!("{first}, and {} in the way", wording::count(more - 1, "more hold")),
    })
}

/// The holds of users other than the caller's for which the condition is true.
fn foreign(tables: &Tables<'_>, process: u16, condition: impl Fn(&Hold) -> bool) -> Vec<Hold> {
    let user = tables.user(process);
    let others = tables.holds().filter(|hold| tables.user(hold.process) != user);
    others.filter(|hold| condition(hold)).collect()
}

/// Another user's end hold on an entry.
pub fn end_holder(tables: &Tables<'_>, process: u16, place: &Place) -> Option<Hold> {
    let ends = |hold: &Hold| hold.place == *place && hold.role == Role::End;
    foreign(tables, process, ends).into_iter().next()
}

/// Which table of names is full.
fn no_name_row(tables: &Tables<'_>) -> String {
    if tables.entries().count() == ENTRY_ROWS {
        format!("all {ENTRY_ROWS} places for names are taken")
    } else {
        format!("all {NODE_ROWS} places for files, directories and links are taken")
    }
}

/// How many holds were needed, and how many rows are free.
fn no_hold_row(tables: &Tables<'_>, call: &Call) -> Option<String> {
    let own: Vec<Hold> = tables.holds().filter(|hold| hold.process == call.process()).collect();
    let needed = match call {
        Call::Fork { .. } => own.len(),
        _ => lacking(&own, &trail(tables, call)?),
    };
    let free = HOLD_ROWS - tables.holds().count();
    let needed = wording::count(needed, "new hold");
    Some(format!("the call takes {needed}, and of {HOLD_ROWS} places for holds {free} are free"))
}

/// How many holds a process lacks for a way: each link once, and the end.
fn lacking(own: &[Hold], trail: &Trail) -> usize {
    let has =
        |place: &Place, role| own.iter().any(|hold| hold.place == *place && hold.role == role);
    let links = trail.links_once().filter(|place| !has(place, Role::Element)).count();
    let end = trail.end().is_some_and(|(place, _)| !has(place, Role::End));
    links + usize::from(end)
}

/// Why bytes that are no record of a call were refused.
pub fn reason_of_bytes(bytes: &[u8], refusal: Refusal) -> String {
    let Some(head) = bytes.first_chunk::<HEAD>() else {
        return format!("there are {}, and a record has {HEAD} or more", count_bytes(bytes.len()));
    };
    let bits = head.iter().fold(0u64, |bits, byte| bits << 8 | u64::from(*byte));
    let (call, process, argument) = (bits >> 51, bits >> 35 & 0xFFFF, bits >> 19 & 0xFFFF);
    let (length1, length2) = ((bits >> 11 & 0xFF) as usize, (bits >> 3 & 0xFF) as usize);
    let full = HEAD + length1 + length2;
    match refusal {
        Refusal::ShortRecord => {
            format!("there are {}, and the record has {full}", count_bytes(bytes.len()))
        }
        Refusal::BadField if !(1..=13).contains(&call) => format!("there is no call {call}"),
        Refusal::BadField if process == 0 => "0 is no number of a process".to_string(),
        Refusal::BadField if bits & 7 != 0 => "the last 3 bits of byte 7 are not 0".to_string(),
        Refusal::BadField if call == 2 && argument == 0 => "0 is no number of a child".to_string(),
        Refusal::BadField => format!("call {call} has an argument or a path that it does not take"),
        _ => {
            let (path1, path2) = bytes[HEAD..full].split_at(length1);
            let second = if call == 10 { target_fault(path2) } else { path_fault(path2) };
            path_fault(path1).or(second).unwrap_or_else(|| refusal.to_string())
        }
    }
}

/// So many bytes.
fn count_bytes(count: usize) -> String {
    wording::count(count, "byte")
}
