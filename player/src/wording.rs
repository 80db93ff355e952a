//! How processes, users, paths and kinds are told.

use tickbutton::shown;
use tickbutton::tables::{Hold, Kind, Place, Role, Tables};

/// A user: `user 500`, or `root`.
pub fn user(user: u16) -> String {
    match user {
        0 => "root".to_string(),
        _ => format!("user {user}"),
    }
}

/// A process with its user.
pub fn process(tables: &Tables<'_>, process: u16) -> String {
    match tables.user(process) {
        Some(its) => format!("process {process} of {}", user(its)),
        None => format!("process {process}, not listed"),
    }
}

/// The path of an entry; its directory's number where no path leads there.
pub fn path(tables: &Tables<'_>, place: &Place) -> String {
    match tables.path_of(place) {
        Some(path) => shown(&path),
        None => format!("{} in directory {}", shown(&place.name), place.directory),
    }
}

/// Paths one after another.
pub fn paths<'trail>(tables: &Tables<'_>, places: impl Iterator<Item = &'trail Place>) -> String {
    let all: Vec<String> = places.map(|place| path(tables, place)).collect();
    all.join(", ")
}

/// What a node is: `a file`, or `absent` for 0.
pub fn kind(tables: &Tables<'_>, node: u16) -> &'static str {
    match tables.node(node).map(|node| node.kind) {
        Some(Kind::File) => "a file",
        Some(Kind::Directory) => "a directory",
        Some(Kind::Link) => "a link",
        None => "absent",
    }
}

/// Who has a hold on what.
pub fn hold(tables: &Tables<'_>, hold: &Hold) -> String {
    let way = if hold.role == Role::Element { ", a link on its way" } else { "" };
    format!("{} holds {}{way}", process(tables, hold.process), path(tables, &hold.place))
}

/// So many things: `1 hold`, `2 holds`.
pub fn count(number: usize, thing: &str) -> String {
    match number {
        1 => format!("1 {thing}"),
        _ => format!("{number} {thing}s"),
    }
}
