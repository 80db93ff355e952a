//! What a granted call did, told from the tables before and after it.

use tickbutton::tables::{Hold, Tables};
use tickbutton::{shown, Call, Granted};

use crate::refused::{end_holder, trail};
use crate::wording;

/// What was held, seen or done.
pub fn outcome(before: &Tables<'_>, after: &Tables<'_>, call: &Call, granted: Granted) -> String {
    let done = match call {
        Call::Enter { process, user } => {
            Some(format!("process {process} works for {} from now on", wording::user(*user)))
        }
        Call::Fork { process, child } => Some(forked(before, *process, *child)),
        Call::Exec { process } => Some(format!("it lets go of {}", own(before, *process))),
        Call::Exit { process } => {
            Some(format!("it leaves and lets go of {}", own(before, *process)))
        }
        Call::Check { .. } | Call::Look { .. } | Call::Use { .. } => found(before, call, granted),
        Call::Unlink { .. } | Call::Rmdir { .. } => removed(before, after, call),
        _ => made(before, after, call),
    };
    done.unwrap_or_default() + &taken_from_others(before, after, call.process())
}

/// How many holds a process has.
fn own(tables: &Tables<'_>, process: u16) -> String {
    wording::count(tables.holds().filter(|hold| hold.process == process).count(), "hold")
}

/// A new child.
fn forked(before: &Tables<'_>, process: u16, child: u16) -> String {
    let user = wording::user(before.user(process).unwrap_or(0));
    format!("process {child} works for {user} too and gets {}", own(before, process))
}

/// What a check, look or use found, and whose it is.
fn found(tables: &Tables<'_>, call: &Call, granted: Granted) -> Option<String> {
    let trail = trail(tables, call)?;
    let way = match trail.links.len() {
        0 => String::new(),
        1 => format!("by the link {}, ", wording::paths(tables, trail.links.iter())),
        _ => format!("by the links {}, ", wording::paths(tables, trail.links.iter())),
    };
    let Some((place, node)) = trail.end() else {
        return Some(format!("{way}/ is there always"));
    };
    let what = format!("{way}{} is {}", wording::path(tables, place), wording::kind(tables, node));
    if let Granted::Seen(_) = granted {
        let holder = wording::process(tables, end_holder(tables, call.process(), place)?.process);
        return Some(format!("{what}, but {holder} holds it and may change it"));
    }
    Some(format!("{what} and stays so for {}", user_of(tables, call)))
}

/// The caller's user.
fn user_of(tables: &Tables<'_>, call: &Call) -> String {
    wording::user(tables.user(call.process()).unwrap_or(0))
}

/// What was made.
fn made(before: &Tables<'_>, after: &Tables<'_>, call: &Call) -> Option<String> {
    let trail = trail(before, call)?;
    let (place, _) = trail.end()?;
    let path = wording::path(after, place);
    let what = match call {
        Call::Symlink { target, .. } => format!("{path} is a new link to {}", shown(target)),
        Call::Link { old, .. } => format!("{path} is a new name of what {} is", shown(old)),
        _ => format!("{path} is {} now", wording::kind(after, after.led_to(place))),
    };
    Some(format!("{what}, held for {}", user_of(before, call)))
}

/// What was removed, and how many names it still has.
fn removed(before: &Tables<'_>, after: &Tables<'_>, call: &Call) -> Option<String> {
    let trail = trail(before, call)?;
    let (place, node) = trail.end()?;
    let left = match after.node(node).map(|node| usize::from(node.entries)) {
        Some(names) => format!(", and what it led to keeps {}", wording::count(names, "name")),
        None => String::new(),
    };
    let path = wording::path(before, place);
    Some(format!("{path} is gone{left}, and stays so for {}", user_of(before, call)))
}

/// The holds that other processes lost by the call, as a last part of the sentence.
fn taken_from_others(before: &Tables<'_>, after: &Tables<'_>, process: u16) -> String {
    let still: Vec<Hold> = after.holds().collect();
    let lost = before.holds().filter(|hold| hold.process != process && !still.contains(hold));
    let told = lost.map(|hold| {
        let path = wording::path(before, &hold.place);
        format!("; {} loses its hold on {path}", wording::process(before, hold.process))
    });
    told.collect()
}
