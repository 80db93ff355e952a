//! Which traces are claimed: short ones from fresh tables, and windows of long ones where a
//! table is full, so that every number comes without a long computation.

use reference::generate::{broken_tables, flip_bits, sound_tables, Mode, Random, Trace, MODES};
use reference::numbers::{NO_HOLD_ROW, NO_NAME_ROW, NO_PROCESS_ROW};
use reference::sound::RULES;
use reference::{serve_tables, Answer, Rule, Tables};

use crate::claim::{Claim, Over};

/// Every claim of the comparison, the same ones each time.
pub fn claims() -> Vec<Claim> {
    let mut all = Vec::new();
    for (mode, _) in MODES {
        for seed in 0..4 {
            if let Some(brim) = brim(mode) {
                if seed < 2 {
                    all.push(at_the_brim(mode, seed, brim));
                }
            } else {
                all.push(window(mode, seed, if seed % 2 == 0 { 0 } else { 150 }, 45));
            }
        }
    }
    for mode in [Mode::Mixed, Mode::Links, Mode::Damaged] {
        let (start, records) = cut(mode, 40, 0, 9);
        all.push(Claim::new(Over::Words, &start, records));
    }
    all.extend(unsound());
    all
}

/// The number that tells that a mode's table is full.
fn brim(mode: Mode) -> Option<u32> {
    match mode {
        Mode::Entries | Mode::Nodes => Some(NO_NAME_ROW),
        Mode::Processes => Some(NO_PROCESS_ROW),
        Mode::Holds => Some(NO_HOLD_ROW),
        Mode::Mixed | Mode::Links | Mode::Damaged => None,
    }
}

/// The words after so many records of a trace, and the records that follow.
fn cut(mode: Mode, seed: u64, skipped: usize, calls: usize) -> (Vec<u32>, Vec<Vec<u8>>) {
    let mut trace = Trace::new(mode, seed);
    let mut tables = Tables::fresh();
    for _ in 0..skipped {
        serve_tables(&mut tables, &trace.next_record());
    }
    let records = (0..calls).map(|_| trace.next_record()).collect();
    (tables.pack(), records)
}

fn window(mode: Mode, seed: u64, skipped: usize, calls: usize) -> Claim {
    let (start, mut records) = cut(mode, seed, skipped, calls);
    if mode == Mode::Damaged {
        let whole = records[0].len();
        let short = records[0][..whole - 1].to_vec();
        records.push(short);
    }
    Claim::new(Over::Rows, &start, records)
}

/// Twelve calls around the first that finds the table full.
fn at_the_brim(mode: Mode, seed: u64, number: u32) -> Claim {
    let mut trace = Trace::new(mode, seed);
    let mut tables = Tables::fresh();
    let mut place: usize = 0;
    while serve_tables(&mut tables, &trace.next_record()).0 != Answer::Refused(number)
        && place < 5_000
    {
        place += 1;
    }
    window(mode, seed, place.saturating_sub(6), 12)
}

/// Tables with one rule broken, and tables with a flipped bit, each with one call.
fn unsound() -> Vec<Claim> {
    let record = Trace::new(Mode::Mixed, 0).next_record();
    let mut random = Random::new(7);
    let mut all = Vec::new();
    for (rule, _) in RULES {
        if rule == Rule::SliceLength {
            let long = Tables::fresh().pack();
            all.push(Claim::new(Over::Words, &long[1..], vec![record.clone()]));
            continue;
        }
        let words = smallest(60, || broken_tables(&mut random, rule));
        all.push(Claim::new(Over::Words, &words, vec![record.clone()]));
    }
    let mut random = Random::new(8);
    for _ in 0..3 {
        let mut words = smallest(60, || sound_tables(&mut random).pack());
        all.push(Claim::new(Over::Words, &words, vec![record.clone()]));
        flip_bits(&mut Random::new(9), &mut words, 1);
        all.push(Claim::new(Over::Words, &words, vec![record.clone()]));
    }
    all
}

/// Of so many tables the one with the fewest used words, which is the quickest to compute with.
fn smallest(count: usize, mut next: impl FnMut() -> Vec<u32>) -> Vec<u32> {
    let tables = (0..count).map(|_| next());
    tables.min_by_key(|words| words.iter().filter(|word| **word != 0).count()).unwrap_or_default()
}
