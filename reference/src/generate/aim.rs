//! Calls of the modes mixed and links.

use super::traces::{Trace, Wish};
use super::Random;
use crate::limits::{ABSENCE, START};
use crate::records::{row_of_name, CallName, Class, CALLS};
use crate::tables::{used_rows, Tables};
use crate::walk::walk;

/// The users of the mode mixed, root first.
const USERS: [u16; 4] = [0, 500, 600, 700];
/// The processes of the mode mixed.
const PROCESSES: [u16; 9] = [10, 20, 21, 30, 31, 40, 41, 50, 65535];
/// Directories that the mode mixed makes and works in.
const DIRECTORIES: [&str; 6] = ["", "", "/in", "/in", "/in/deep", "/out"];
/// Names that the mode mixed works with.
const NAMES: [&str; 7] = ["in", "out", "deep", "fox", "a", "b", "fourteen-bytes"];
/// Targets of the mode mixed.
const TARGETS: [&str; 10] =
    ["/", "/in", "in", "fox", "/in/fox", "deep", "/out/a", "deep/b", "/b", "fourteen-bytes"];

/// How often each of the thirteen calls comes in the mode mixed.
const MIXED: [usize; 13] = [7, 4, 5, 3, 14, 7, 11, 13, 9, 8, 9, 15, 12];
/// How often each of the thirteen calls comes in the mode links.
const LINKS: [usize; 13] = [6, 2, 14, 3, 26, 8, 16, 7, 5, 28, 10, 18, 6];
/// Above so many used nodes, creations turn into removals, so that the world stays small.
const MANY_NODES: usize = 34;

/// The first calls of the mode mixed.
pub fn mixed_opening() -> Vec<Wish> {
    vec![
        Wish::new(CallName::Enter, 10).argument(0),
        Wish::new(CallName::Mkdir, 10).path("/in"),
        Wish::new(CallName::Mkdir, 10).path("/in/deep"),
        Wish::new(CallName::Mkdir, 10).path("/out"),
        Wish::new(CallName::Exec, 10),
        Wish::new(CallName::Enter, 20).argument(500),
        Wish::new(CallName::Enter, 30).argument(600),
    ]
}

/// A process: mostly a listed one, and less often root's so that others get along too.
fn some_process(trace: &mut Trace) -> u16 {
    if trace.random.percent(6) {
        return *trace.random.pick(&PROCESSES);
    }
    let process = trace.some_listed(PROCESSES[0]);
    if trace.tables.user(process) == Some(0) && trace.random.percent(50) {
        return trace.some_listed(PROCESSES[0]);
    }
    process
}

/// A path of the mode mixed: one of few places, and now and then a longer way.
fn mixed_path(random: &mut Random) -> Vec<u8> {
    if random.percent(3) {
        return b"/".to_vec();
    }
    let mut path = random.pick(&DIRECTORIES).to_string();
    let mut names = 1;
    while random.percent(12) {
        names += 1;
    }
    for _ in 0..names {
        let name = random.pick(&NAMES);
        path.push('/');
        path.push_str(name);
    }
    path.into_bytes()
}

/// Whether a creation or removal gets past its walk at this path, holds aside; every path
/// suits the other calls.
fn suits(tables: &Tables, name: CallName, path: &[u8]) -> bool {
    let class = row_of_name(name).class;
    let Ok(goal) = walk(tables, path, false) else {
        return class != Class::Creation && class != Class::Removal;
    };
    match class {
        Class::Creation => goal.node == ABSENCE,
        Class::Check | Class::Use | Class::Process => true,
        Class::Removal if name == CallName::Unlink => {
            goal.node != ABSENCE && !tables.is_directory(goal.node)
        }
        Class::Removal => {
            tables.is_directory(goal.node) && goal.end.is_some() && !tables.has_entries(goal.node)
        }
    }
}

/// A path from the function that mostly suits the call.
fn aimed_path(trace: &mut Trace, name: CallName, path: fn(&mut Random) -> Vec<u8>) -> Vec<u8> {
    let mut aimed = path(&mut trace.random);
    while !suits(&trace.tables, name, &aimed) && trace.random.percent(85) {
        aimed = path(&mut trace.random);
    }
    aimed
}

/// A removal of what stands at some present path.
fn removal(trace: &mut Trace, process: u16) -> Wish {
    let path = trace.present_path();
    let unlinked = suits(&trace.tables, CallName::Unlink, &path);
    let name = if unlinked { CallName::Unlink } else { CallName::Rmdir };
    Wish::new(name, process).path(path)
}

/// The calls of both modes, with paths and targets from these two functions.
fn call(
    trace: &mut Trace,
    weights: &[usize; 13],
    path: fn(&mut Random) -> Vec<u8>,
    target: fn(&mut Random) -> Vec<u8>,
) -> Wish {
    let name = CALLS[trace.random.weighted(weights)].name;
    let process = some_process(trace);
    let wish = Wish::new(name, process);
    let many = used_rows(&trace.tables.nodes) > MANY_NODES;
    if many && row_of_name(name).class == Class::Creation {
        return removal(trace, process);
    }
    match name {
        CallName::Enter => {
            let user = *trace.random.pick(&USERS);
            Wish::new(name, *trace.random.pick(&PROCESSES)).argument(user)
        }
        CallName::Fork => wish.argument(*trace.random.pick(&PROCESSES)),
        CallName::Exec | CallName::Exit => wish,
        CallName::Symlink => {
            let second = target(&mut trace.random);
            wish.path(aimed_path(trace, name, path)).second(second)
        }
        CallName::Link => {
            let old = aimed_path(trace, CallName::Unlink, path);
            wish.path(aimed_path(trace, name, path)).second(old)
        }
        _ => wish.path(aimed_path(trace, name, path)),
    }
}

/// The next call of the mode mixed.
pub fn mixed(trace: &mut Trace) -> Wish {
    if trace.random.percent(7) {
        let directory = *trace.random.pick(&DIRECTORIES[2..]);
        return Wish::new(CallName::Mkdir, some_process(trace)).path(directory);
    }
    call(trace, &MIXED, mixed_path, |random| random.pick(&TARGETS).as_bytes().to_vec())
}

/// How many links a chain of the mode links may have, from `l0` on.
const CHAIN: usize = 11;

/// The first calls of the mode links: a chain of ten links to a file, half of them relative.
pub fn links_opening() -> Vec<Wish> {
    let mut wishes = vec![
        Wish::new(CallName::Enter, 10).argument(0),
        Wish::new(CallName::Mkdir, 10).path("/d"),
        Wish::new(CallName::Mkdir, 10).path("/d/e"),
        Wish::new(CallName::Create, 10).path("/l10"),
    ];
    for number in 0..CHAIN - 1 {
        let slash = if number % 2 == 0 { "" } else { "/" };
        let wish = Wish::new(CallName::Symlink, 10).path(format!("/l{number}"));
        wishes.push(wish.second(format!("{slash}l{}", number + 1)));
    }
    wishes.push(Wish::new(CallName::Exec, 10));
    wishes.push(Wish::new(CallName::Enter, 20).argument(500));
    wishes.push(Wish::new(CallName::Enter, 30).argument(600));
    wishes
}

/// A name of a link's place in one of three directories.
fn link_place(random: &mut Random) -> String {
    let directory = random.pick(&["", "", "", "/d", "/d/e"]);
    format!("{directory}/l{}", random.below(CHAIN))
}

/// A path of the mode links: a link's place, through links to others, or something beyond.
fn links_path(random: &mut Random) -> Vec<u8> {
    let mut path = match random.below(12) {
        0 => "/d".to_string(),
        1 => "/d/e".to_string(),
        2 => "/f".to_string(),
        3 => "/l0".to_string(),
        4 => "/l1".to_string(),
        _ => link_place(random),
    };
    while random.percent(18) {
        let name = random.pick(&["l0", "l1", "l2", "l5", "l9", "d", "e", "f"]);
        path.push('/');
        path.push_str(name);
    }
    path.into_bytes()
}

/// A target of the mode links: the next of the chain, a directory, `/`, a ring or an absence.
fn links_target(random: &mut Random) -> Vec<u8> {
    let slash = if random.percent(50) { "/" } else { "" };
    let number = random.below(CHAIN);
    let target = match random.below(14) {
        0 => "/".to_string(),
        1 => format!("{slash}d"),
        2 => format!("{slash}d/e"),
        3 => format!("{slash}e"),
        4 => format!("{slash}absent"),
        5 => format!("{slash}absent/more"),
        6 => format!("{slash}d/l{number}"),
        7 => format!("{slash}e/l{number}"),
        8 => format!("{slash}l{}/l{number}", random.below(CHAIN)),
        9 => format!("{slash}l{}/d", number),
        _ => format!("{slash}l{number}"),
    };
    target.into_bytes()
}

/// The next call of the mode links; some rebuild the chain, the others are random.
pub fn links(trace: &mut Trace) -> Wish {
    if trace.random.percent(15) {
        let absent = |number: &usize| {
            trace.tables.node_led_to(START, format!("l{number}").as_bytes()) == ABSENCE
        };
        let number = (0..CHAIN - 1).find(absent).unwrap_or(0);
        let slash = trace.random.pick(&["", "/"]);
        let target = format!("{slash}l{}", number + 1);
        let process = some_process(trace);
        return Wish::new(CallName::Symlink, process).path(format!("/l{number}")).second(target);
    }
    call(trace, &LINKS, links_path, links_target)
}
