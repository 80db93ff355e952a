//! Walks against the reference: the answer and all numbers of the goal, and the goal that the bindings
//! read from them, on tables heavy in links.

use std::collections::BTreeMap;

use reference::generate::{flip_bits, linked_tables, Random};
use reference::paths::valid_path;
use reference::tables::DirectoryAndName;
use reference::{sound, walk, Goal, Tables};
use tickbutton::archive::{self, GOAL_NUMBERS};
use tickbutton::tables::Place;
use tickbutton::Answer;

/// How often each outcome comes, at the least.
const LEAST: usize = 100;
/// How many paths are walked over one table, each both ways.
const PATHS: usize = 20;

/// Compares about so many walks.
pub fn compare(seed: u64, walks: usize) -> Result<(), String> {
    let mut random = Random::new(seed);
    let mut counts: BTreeMap<String, usize> = BTreeMap::new();
    for _ in 0..walks / PATHS / 2 {
        let world = linked_tables(&mut random);
        let words = some_words(&mut random, &world.tables);
        let tables = sound(&words).then_some(&world.tables);
        for _ in 0..PATHS {
            let path = world.some_path(&mut random);
            let path = some_path(&mut random, path);
            for follow_last in [false, true] {
                let outcome = one_walk(&words, tables, &path, follow_last)?;
                *counts.entry(outcome).or_default() += 1;
            }
        }
    }
    report(&counts)
}

/// The tables' words, one time in twenty with bits turned until they are no longer sound.
fn some_words(random: &mut Random, tables: &Tables) -> Vec<u32> {
    let mut words = tables.pack();
    if random.percent(5) {
        while sound(&words) {
            flip_bits(random, &mut words, 1);
        }
    }
    words
}

/// The path, one time in fifty with something that is not valid.
fn some_path(random: &mut Random, mut path: Vec<u8>) -> Vec<u8> {
    match random.below(250) {
        0 => path.clear(),
        1 => path.push(b'/'),
        2 => path.extend(b"/fifteen-bytes--"),
        3 => path.extend(b"/.."),
        4 => path.resize(256, b'a'),
        _ => {}
    }
    path
}

/// One walk, and the name of what it came to.
fn one_walk(
    words: &[u32],
    tables: Option<&Tables>,
    path: &[u8],
    follow_last: bool,
) -> Result<String, String> {
    let mut goal = [0xEEEE_EEEE; GOAL_NUMBERS];
    let answer = archive::walk(words, path, follow_last, &mut goal);
    let reached = match tables {
        None => Err(1),
        Some(_) if !valid_path(path) => Err(3),
        Some(tables) => walk(tables, path, follow_last),
    };
    let (expected, numbers) = match &reached {
        Err(number) => (Answer::Refused(*number), [0; GOAL_NUMBERS]),
        Ok(reached) => (Answer::Done(u32::from(reached.node)), numbers_of(reached)),
    };
    if answer != expected || goal != numbers {
        let path = String::from_utf8_lossy(path);
        return Err(format!("walking {path}, last {follow_last}: {answer:?} {goal:?}; the reference: {expected:?} {numbers:?}"));
    }
    if reached.as_ref().is_ok_and(|reached| !is_read_as(&goal, reached)) {
        return Err(format!("the bindings read {goal:?} otherwise than as {reached:?}"));
    }
    Ok(match reached {
        Err(number) => format!("refused {number}"),
        Ok(Goal { end: None, elements, .. }) => format!("by / with {} elements", elements.len()),
        Ok(Goal { node: 0, elements, .. }) => format!("absent with {} elements", elements.len()),
        Ok(Goal { elements, .. }) => format!("found with {} elements", elements.len()),
    })
}

/// Whether the bindings read this goal from the numbers.
fn is_read_as(numbers: &[u32; GOAL_NUMBERS], goal: &Goal) -> bool {
    let place =
        |(directory, name): &DirectoryAndName| Place { directory: *directory, name: name.clone() };
    let end = goal.end.as_ref().map(place);
    let elements = goal.elements.iter().map(place).collect();
    tickbutton::Goal::of_numbers(goal.node, numbers)
        == tickbutton::Goal { node: goal.node, end, elements }
}

/// The goal as the archive's numbers.
fn numbers_of(goal: &Goal) -> [u32; GOAL_NUMBERS] {
    let mut numbers = [0; GOAL_NUMBERS];
    numbers[0] = goal.elements.len() as u32;
    let places = goal.end.iter().chain(&goal.elements);
    let first = if goal.end.is_some() { 1 } else { 6 };
    for (place, room) in places.zip(numbers[first..].chunks_exact_mut(5)) {
        room.copy_from_slice(&numbers_of_place(place));
    }
    numbers
}

/// A directory and a name block: the length, 14 bytes, and a zero byte, most significant first.
fn numbers_of_place((directory, name): &DirectoryAndName) -> [u32; 5] {
    let mut block = [0; 16];
    block[0] = name.len() as u8;
    block[1..=name.len()].copy_from_slice(name);
    let word = |place: usize| {
        u32::from_be_bytes([block[place], block[place + 1], block[place + 2], block[place + 3]])
    };
    [u32::from(*directory), word(0), word(4), word(8), word(12)]
}

/// Prints the counts; an error where an outcome came too rarely.
fn report(counts: &BTreeMap<String, usize>) -> Result<(), String> {
    println!("walks: {}", counts.values().sum::<usize>());
    for (outcome, count) in counts {
        println!("{outcome}: {count}");
    }
    let refusals = [1, 3, 7, 8, 9].map(|number| format!("refused {number}"));
    let ends = (0..=8).flat_map(|number| {
        ["found", "absent", "by /"].map(|end| format!("{end} with {number} elements"))
    });
    let rare: Vec<String> = refusals
        .into_iter()
        .chain(ends)
        .filter(|outcome| counts.get(outcome).copied().unwrap_or(0) < LEAST)
        .collect();
    if rare.is_empty() {
        return Ok(());
    }
    Err(format!("came fewer than {LEAST} times: {rare:?}"))
}
