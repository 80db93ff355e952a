//! Claims about packing: random fields, paths and destinations, with what the reference writes.

use std::collections::BTreeMap;

use reference::generate::Random;
use reference::records::pack;

use crate::claim::{header, list};

const PACKINGS: usize = 60;
const FILLING: u8 = 238;

/// The module with all of them, and how often each answer came.
pub fn module() -> (String, BTreeMap<String, usize>) {
    let mut random = Random::new(18);
    let mut text = header("packing_agrees");
    let mut counts = BTreeMap::new();
    for place in 0..PACKINGS {
        let (claim, answer) = one(&mut random, place);
        text.push_str(&claim);
        *counts.entry(answer).or_default() += 1;
    }
    (text, counts)
}

fn one(random: &mut Random, place: usize) -> (String, String) {
    let call = if random.percent(20) { random.below(40) } else { random.between(1, 13) } as u64;
    let process = random.below(65_536) as u16;
    let argument = if call <= 2 || random.percent(5) { random.below(65_536) as u16 } else { 0 };
    let path1 = if call <= 4 && random.percent(90) { Vec::new() } else { path(random, "/") };
    let path2 = match call {
        10 => path(random, ""),
        11 => path(random, "/"),
        _ => Vec::new(),
    };
    let size = random.below(40);
    let mut destination = vec![FILLING; size];
    let answer = pack(call, process, argument, &path1, &path2, &mut destination);
    let (given, name) = match answer {
        Ok(length) => (format!("(0 ∷ {length} ∷ [])"), "packed".to_string()),
        Err(number) => (format!("(1 ∷ {number} ∷ [])"), format!("refused {number}")),
    };
    let claim = format!(
        "agrees_{place} : packing_agrees (record {{ call = {call}; process = {process}; argument = {argument}; path1 = {}; path2 = {}; zeros = 0 }}) {size} {given} {} ≡ true\n\
         unfolding computing_traces\nagrees_{place} = refl\n\n",
        list(&path1),
        list(&path2),
        list(&destination),
    );
    (claim, name)
}

/// A path that is mostly valid.
fn path(random: &mut Random, start: &str) -> Vec<u8> {
    let names =
        ["in", "fox", "a", "wolf", "...", "..", "knitted", "abcdefghijklmn", "abcdefghijklmno", ""];
    let mut text = String::from(start);
    for place in 0..random.between(1, 3) {
        if place > 0 {
            text.push('/');
        }
        let pool = if random.percent(85) { 5 } else { names.len() };
        text.push_str(names[random.below(pool)]);
    }
    text.into_bytes()
}
