//! Runs against the reference: how many records were served, how many bytes they are, every word
//! and every slot, those behind the answers too.

use reference::generate::{Mode, Random, Trace, MODES};
use reference::Tables;
use tickbutton::archive;

use crate::service::{same_answer, some_words};
use crate::tally::{refusals, Tally};

const LEAST: usize = 30;

/// What stands in a slot before the run.
const UNTOUCHED: u64 = 0xfedc_ba98_7654_3210;

/// Compares so many runs of up to 60 records: half of them go on over the same tables from fresh
/// ones on, half are on random tables.
pub fn compare(seed: u64, runs: usize) -> Result<(), String> {
    let mut tally = Tally::default();
    let mut random = Random::new(seed);
    for mode in MODES.map(|(mode, _)| mode) {
        let mut trace = Trace::new(mode, seed);
        let mut words = Tables::fresh().pack();
        for _ in 0..runs / 2 / MODES.len() {
            one_run(&mut words, &mut trace, &mut random, &mut tally)?;
        }
    }
    let mut trace = Trace::new(Mode::Mixed, seed);
    for _ in 0..runs / 2 {
        let mut words = some_words(&mut random);
        one_run(&mut words, &mut trace, &mut random, &mut tally)?;
    }
    let mut expected = refusals(1..=16);
    expected.extend(["held", "seen", "done"].map(String::from));
    tally.report("records in runs", &expected, LEAST)
}

/// Up to 60 records, the last one cut short now and then; fewer slots, as many, or more.
fn one_run(
    words: &mut Vec<u32>,
    trace: &mut Trace,
    random: &mut Random,
    tally: &mut Tally,
) -> Result<(), String> {
    let count = random.below(61);
    let mut records: Vec<u8> = (0..count).flat_map(|_| trace.next_record()).collect();
    if random.below(4) == 0 {
        records.truncate(records.len().saturating_sub(random.between(1, 9)));
    }
    let mut slots = vec![UNTOUCHED; random.below(80)];
    let mut expected_words = words.clone();
    let (served, taken) = archive::serve_run(words, &records, &mut slots);
    let mut at = 0;
    for (place, slot) in slots.iter().enumerate() {
        let mut after = expected_words.clone();
        let (expected, expected_taken) = reference::serve(&mut after, &records[at..]);
        if expected_taken == 0 {
            let rest = slots[place..].iter().all(|slot| *slot == UNTOUCHED);
            return told(served == place && taken == at && rest && *words == expected_words, place);
        }
        let answer = archive::told_answer(*slot);
        if !same_answer(answer, expected) {
            return Err(format!(
                "record {place} of a run: {answer:?}; the reference: {expected:?}"
            ));
        }
        tally.count(answer);
        expected_words = after;
        at += expected_taken;
    }
    told(served == slots.len() && taken == at && *words == expected_words, slots.len())
}

fn told(right: bool, place: usize) -> Result<(), String> {
    if right {
        return Ok(());
    }
    Err(format!("a run that ends before record {place}: its count, bytes, words or slots differ"))
}
