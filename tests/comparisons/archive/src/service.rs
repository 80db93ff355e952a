//! Serving against the reference: answer, bytes taken and every word after each call.

use reference::generate::{
    broken_tables, flip_bits, some_breakable, sound_tables, Mode, Random, Trace, MODES,
};
use reference::Tables;
use tickbutton::{archive, Answer};

use crate::tally::{refusals, Tally};

const LEAST: usize = 100;
/// How many traces of each mode there are.
const TRACES: usize = 12;

/// Compares at least so many calls: traces of every mode from fresh tables, and single calls on
/// random tables, sound, broken and damaged.
pub fn compare(seed: u64, calls: usize) -> Result<(), String> {
    let mut tally = Tally::default();
    fresh_everywhere()?;
    let traces = MODES.len() * TRACES;
    for number in 0..traces {
        let mode = MODES[number % MODES.len()].0;
        one_trace(mode, seed + number as u64, (calls * 9 / 10).div_ceil(traces), &mut tally)?;
    }
    let mut random = Random::new(seed);
    let mut trace = Trace::new(Mode::Mixed, seed);
    for _ in 0..calls.div_ceil(10) {
        let mut words = some_words(&mut random);
        let record = trace.next_record();
        tally.count(one_call(&mut words, &record)?);
    }
    let mut expected = refusals(1..=17);
    expected.extend(["held", "seen", "done"].map(String::from));
    tally.report("served calls", &expected, LEAST)
}

fn one_trace(mode: Mode, seed: u64, calls: usize, tally: &mut Tally) -> Result<(), String> {
    let mut trace = Trace::new(mode, seed);
    let mut words = Tables::fresh().pack();
    for place in 0..calls {
        let mut record = trace.next_record();
        if place % 50 == 49 {
            record.pop();
        }
        tally.count(one_call(&mut words, &record)?);
    }
    Ok(())
}

/// Random tables: mostly sound, some with one rule broken or some bits flipped, some of another length.
pub fn some_words(random: &mut Random) -> Vec<u32> {
    let mut words = sound_tables(random).pack();
    match random.below(6) {
        0 => {
            let rule = some_breakable(random);
            return broken_tables(random, rule);
        }
        1 => {
            let bits = random.between(1, 3);
            flip_bits(random, &mut words, bits);
        }
        2 => words.truncate(random.below(words.len() + 1)),
        _ => {}
    }
    words
}

fn one_call(words: &mut Vec<u32>, record: &[u8]) -> Result<Answer, String> {
    let before = words.clone();
    let mut expected_words = before.clone();
    let (answer, taken) = archive::serve(words, record);
    let (expected, expected_taken) = reference::serve(&mut expected_words, record);
    if same_answer(answer, expected) && taken == expected_taken && *words == expected_words {
        return Ok(answer);
    }
    Err(format!(
        "serving `{}`: {answer:?}, taken {taken}; the reference: {expected:?}, taken {expected_taken}; words equal: {}",
        reference::text::line(record),
        *words == expected_words
    ))
}

/// Whether the archive and the reference answered the same.
pub fn same_answer(answer: Answer, expected: reference::Answer) -> bool {
    (answer.word(), answer.number()) == (expected.word(), expected.number())
}

/// Fresh tables of the right length, and of others, which are refused and left as they were.
fn fresh_everywhere() -> Result<(), String> {
    for count in [0, 1, 8_511, 8_512, 8_513, 20_000] {
        let mut words = vec![7; count];
        let answer = archive::fresh(&mut words);
        let right = if count == reference::WORDS {
            answer == Answer::Done(0) && words == Tables::fresh().pack()
        } else {
            answer == Answer::Refused(1) && words.iter().all(|word| *word == 7)
        };
        if !right {
            return Err(format!("fresh tables of {count} words: {answer:?}"));
        }
    }
    Ok(())
}
