//! The test of soundness against the reference: sound tables of every fill, the same with one to
//! three bits turned, tables that break one rule alone, and slices of other lengths.

use std::thread;

use reference::generate::{broken_tables, flip_bits, sound_tables, Random};
use reference::limits::WORDS;
use reference::sound::RULES;
use reference::tables::{free_rows, used_rows};
use reference::{broken_rules, Tables};
use tickbutton::{archive, Answer};

/// How often each rule is the only one broken, at the least.
const LEAST: usize = 1_000;
/// Parts of the work, each with a seed of its own, so that they can run beside each other.
const PARTS: usize = 4;
/// The other lengths that are tried over and over.
const LENGTHS: [usize; 8] = [0, 1, 8_447, 8_511, 8_513, 8_576, 17_024, 20_000];

/// What came up.
#[derive(Clone, Default)]
struct Counts {
    sound: usize,
    unsound: usize,
    turned_and_sound: usize,
    other_lengths: usize,
    alone: [usize; RULES.len()],
    fills: [[usize; 3]; 4],
}

/// Compares so many tables.
pub fn compare(seed: u64, tables: usize) -> Result<(), String> {
    let parts: Vec<Result<Counts, String>> = thread::scope(|scope| {
        let start = |part: usize| scope.spawn(move || one_part(seed + part as u64, tables / PARTS));
        let handles: Vec<_> = (0..PARTS).map(start).collect();
        handles
            .into_iter()
            .map(|handle| handle.join().unwrap_or_else(|_| Err("a part broke off".to_string())))
            .collect()
    });
    let mut whole = Counts::default();
    for part in parts {
        whole.add(&part?);
    }
    whole.report()
}

/// A fifth of the tables breaks one rule each; of the rest each is tested sound and with bits turned, three times.
fn one_part(seed: u64, tables: usize) -> Result<Counts, String> {
    let mut random = Random::new(seed);
    let mut counts = Counts::default();
    let (broken, sound) = (tables / 5, tables / 5);
    for place in 0..broken {
        let rule = RULES[place % RULES.len()].0;
        let words = broken_tables(&mut random, rule);
        one_table(&words, &mut counts)?;
    }
    for place in 0..sound {
        let rows = sound_tables(&mut random);
        counts.fill(&rows);
        let words = rows.pack();
        one_table(&words, &mut counts)?;
        for turned in 1..=3 {
            let mut damaged = words.clone();
            if turned == 1 && place % 40 == 0 {
                damaged.resize(LENGTHS[place / 40 % LENGTHS.len()], 0);
                counts.other_lengths += 1;
            } else {
                flip_bits(&mut random, &mut damaged, turned);
            }
            let before = counts.sound;
            one_table(&damaged, &mut counts)?;
            counts.turned_and_sound += counts.sound - before;
        }
    }
    Ok(counts)
}

fn one_table(words: &[u32], counts: &mut Counts) -> Result<(), String> {
    let sound = reference::sound(words);
    let answer = archive::sound(words);
    let expected = if sound { Answer::Done(0) } else { Answer::Refused(1) };
    if answer != expected {
        return Err(format!(
            "{} words: {answer:?}; the reference: {expected:?}, broken rules {:?}",
            words.len(),
            broken_rules(words)
        ));
    }
    if sound {
        counts.sound += 1;
        return Ok(());
    }
    counts.unsound += 1;
    if let [alone] = broken_rules(words).as_slice() {
        let place = RULES.iter().position(|(rule, _)| rule == alone);
        counts.alone[place.unwrap_or_default()] += 1;
    }
    Ok(())
}

/// 0 for a table without used rows, 2 for a full one, 1 for all between.
fn degree<Row>(rows: &[Option<Row>], fewest: usize) -> usize {
    match (used_rows(rows), free_rows(rows)) {
        (used, _) if used <= fewest => 0,
        (_, 0) => 2,
        _ => 1,
    }
}

impl Counts {
    /// One more sound table of this fill.
    fn fill(&mut self, rows: &Tables) {
        let degrees = [
            degree(&rows.entries, 0),
            degree(&rows.nodes, 1),
            degree(&rows.holds, 0),
            degree(&rows.processes, 0),
        ];
        for (fill, degree) in self.fills.iter_mut().zip(degrees) {
            fill[degree] += 1;
        }
    }

    /// The counts of a part.
    fn add(&mut self, part: &Counts) {
        self.sound += part.sound;
        self.unsound += part.unsound;
        self.turned_and_sound += part.turned_and_sound;
        self.other_lengths += part.other_lengths;
        for (sum, count) in self.alone.iter_mut().zip(part.alone) {
            *sum += count;
        }
        for (sum, count) in self.fills.as_flattened_mut().iter_mut().zip(part.fills.as_flattened())
        {
            *sum += count;
        }
    }

    /// Prints the counts; an error where a rule or a fill came too rarely.
    fn report(&self) -> Result<(), String> {
        println!("tables: {} sound, {} not", self.sound, self.unsound);
        println!(
            "still sound with bits turned: {}; of another length than {WORDS}: {}",
            self.turned_and_sound, self.other_lengths
        );
        for (table, fill) in ["entries", "nodes", "holds", "processes"].iter().zip(self.fills) {
            println!(
                "sound tables by their {table}: {} empty, {} between, {} full",
                fill[0], fill[1], fill[2]
            );
        }
        for ((_, name), count) in RULES.iter().zip(self.alone) {
            println!("broken alone: {name} {count}");
        }
        let rare: Vec<&str> = RULES
            .iter()
            .zip(self.alone)
            .filter(|(_, count)| *count < LEAST)
            .map(|((_, name), _)| *name)
            .collect();
        if !rare.is_empty() {
            return Err(format!("broken alone fewer than {LEAST} times: {rare:?}"));
        }
        if self.fills.as_flattened().iter().any(|count| *count < LEAST) {
            return Err(format!("a fill came fewer than {LEAST} times"));
        }
        Ok(())
    }
}
