//! Calls of the modes that fill one table to the brim and then work there.

use super::traces::{Trace, Wish};
use super::Random;
use crate::limits::{HOLD_ROWS, START};
use crate::records::CallName;
use crate::tables::{free_rows, used_rows, Tables};

/// The users that enter, root among them.
const USERS: [u16; 5] = [0, 500, 500, 600, 700];
/// The file to which hard links lead.
const FILE: &str = "/file";

/// The first calls: processes of four users, four directories and a file.
pub fn opening() -> Vec<Wish> {
    let mut wishes =
        vec![Wish::new(CallName::Enter, 1).argument(0), Wish::new(CallName::Create, 1).path(FILE)];
    for number in 0..4 {
        wishes.push(Wish::new(CallName::Mkdir, 1).path(format!("/d{number}")));
    }
    wishes.push(Wish::new(CallName::Exec, 1));
    for (process, user) in [(2, 500), (3, 600), (4, 700)] {
        wishes.push(Wish::new(CallName::Enter, process).argument(user));
    }
    wishes
}

/// A place for a new entry: one of so many names in one of five directories.
fn place(random: &mut Random, names: usize) -> Vec<u8> {
    let directory = random.pick(&["", "/d0", "/d1", "/d2", "/d3"]);
    format!("{directory}/n{}", random.below(names)).into_bytes()
}

/// How many holds a process has.
fn holds_of(tables: &Tables, process: u16) -> usize {
    tables.holds.iter().flatten().filter(|hold| hold.process == process).count()
}

/// An exec of the process with the most holds.
fn make_room(trace: &Trace) -> Wish {
    let listed = trace.listed().into_iter();
    let most = listed.max_by_key(|process| holds_of(&trace.tables, *process));
    Wish::new(CallName::Exec, most.unwrap_or(1))
}

/// An enter of a process from 1 to 90, mostly one that isn't listed.
fn enter(trace: &mut Trace) -> Wish {
    let mut process = trace.random.between(1, 90) as u16;
    for _ in 0..8 {
        if trace.tables.user(process).is_some() {
            process = trace.random.between(1, 90) as u16;
        }
    }
    Wish::new(CallName::Enter, process).argument(*trace.random.pick(&USERS))
}

/// A call that reads, removes or deals with processes, whatever the mode.
fn other(trace: &mut Trace, names: usize) -> Wish {
    let process = trace.some_listed(1);
    let path = match trace.random.percent(60) {
        true => trace.present_path(),
        false => place(&mut trace.random, names),
    };
    let random = &mut trace.random;
    match random.weighted(&[20, 10, 20, 14, 6, 6, 4, 3, 3]) {
        0 => Wish::new(CallName::Check, process).path(path),
        1 => Wish::new(CallName::Look, process).path(path),
        2 => Wish::new(CallName::Use, process).path(path),
        3 => Wish::new(CallName::Unlink, process).path(path),
        4 => Wish::new(CallName::Rmdir, process).path(path),
        5 => Wish::new(CallName::Fork, process).argument(random.between(1, 90) as u16),
        6 => Wish::new(CallName::Exec, process),
        7 => Wish::new(CallName::Exit, process),
        _ => enter(trace),
    }
}

/// A creation of one of the three sorts that need a node.
fn creation(trace: &mut Trace, names: usize) -> Wish {
    let process = trace.some_listed(1);
    let path = place(&mut trace.random, names);
    match trace.random.below(5) {
        0 => Wish::new(CallName::Mkdir, process).path(path),
        1 => {
            let target = place(&mut trace.random, names);
            Wish::new(CallName::Symlink, process).path(path).second(target)
        }
        _ => Wish::new(CallName::Create, process).path(path),
    }
}

/// Whether holds are to be let go of first, since few of their rows are free.
fn wants_room(trace: &mut Trace) -> bool {
    free_rows(&trace.tables.holds) < HOLD_ROWS / 16 && trace.random.percent(80)
}

/// Mode entries: hard links until 512 entries stand, then all calls with links among them.
pub fn entries(trace: &mut Trace) -> Wish {
    /// How many names each directory has at most.
    const NAMES: usize = 160;
    if wants_room(trace) {
        return make_room(trace);
    }
    let full = free_rows(&trace.tables.entries) == 0;
    match trace.random.below(100) {
        0..=44 if full => link(trace, NAMES),
        45..=54 if full => creation(trace, NAMES),
        55..=99 if full => other(trace, NAMES),
        0..=89 => link(trace, NAMES),
        90..=93 => creation(trace, NAMES),
        _ => other(trace, NAMES),
    }
}

/// A hard link to the file or, now and then, to any entry; the file first if it is gone.
fn link(trace: &mut Trace, names: usize) -> Wish {
    let process = trace.some_listed(1);
    if trace.tables.node_led_to(START, &FILE.as_bytes()[1..]) == 0 {
        return Wish::new(CallName::Create, process).path(FILE);
    }
    let old = match trace.random.percent(20) {
        true => trace.present_path(),
        false => FILE.as_bytes().to_vec(),
    };
    let path = place(&mut trace.random, names);
    Wish::new(CallName::Link, process).path(path).second(old)
}

/// Mode nodes: creations until 256 nodes stand, then all calls.
pub fn nodes(trace: &mut Trace) -> Wish {
    /// How many names each directory has at most.
    const NAMES: usize = 100;
    if wants_room(trace) {
        return make_room(trace);
    }
    let full = free_rows(&trace.tables.nodes) == 0;
    match trace.random.below(100) {
        0..=49 if full => creation(trace, NAMES),
        50..=56 if full => link(trace, NAMES),
        57..=99 if full => other(trace, NAMES),
        0..=92 => creation(trace, NAMES),
        _ => other(trace, NAMES),
    }
}

/// Mode processes: enters and forks until 64 stand, then exits and all else between.
pub fn processes(trace: &mut Trace) -> Wish {
    /// How many names each directory has at most.
    const NAMES: usize = 6;
    let process = trace.some_listed(1);
    match trace.random.below(100) {
        0..=34 => enter(trace),
        35..=64 => {
            let child = enter(trace).process;
            Wish::new(CallName::Fork, process).argument(child)
        }
        65..=67 => Wish::new(CallName::Exit, process),
        68..=72 => make_room(trace),
        73..=80 => creation(trace, NAMES),
        _ => other(trace, NAMES),
    }
}

/// Mode holds: checks by a dozen processes until 256 holds stand, then all calls; the process
/// with the fewest holds gives them up now and then.
pub fn holds(trace: &mut Trace) -> Wish {
    /// How many names each directory has at most.
    const NAMES: usize = 60;
    if used_rows(&trace.tables.processes) < 12 && trace.random.percent(30) {
        return enter(trace);
    }
    let full = free_rows(&trace.tables.holds) < 2;
    match trace.random.below(100) {
        0..=3 if full => give_up(trace),
        4..=8 => link(trace, NAMES),
        9..=18 => creation(trace, NAMES),
        19..=38 => other(trace, NAMES),
        _ => {
            let name = *trace.random.pick(&[CallName::Check, CallName::Look]);
            let process = trace.some_listed(1);
            let path = place(&mut trace.random, NAMES);
            Wish::new(name, process).path(path)
        }
    }
}

/// An exec or exit of the process with the fewest holds, but some.
fn give_up(trace: &mut Trace) -> Wish {
    let listed = trace.listed().into_iter().filter(|process| holds_of(&trace.tables, *process) > 0);
    let fewest = listed.min_by_key(|process| holds_of(&trace.tables, *process)).unwrap_or(1);
    let name = *trace.random.pick(&[CallName::Exec, CallName::Exec, CallName::Exit]);
    Wish::new(name, fewest)
}
