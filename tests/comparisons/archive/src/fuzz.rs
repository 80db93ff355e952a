//! Service against reference on as many random calls as one likes, outside the gate: traces of every
//! mode from fresh tables and from random sound ones, and calls on tables that are broken, damaged
//! or of another length. The first difference is told as a story that ./play takes.

use std::sync::atomic::{AtomicU64, Ordering};
use std::sync::Mutex;
use std::time::{Duration, Instant};

use reference::generate::{
    broken_tables, flip_bits, some_breakable, sound_tables, Mode, Random, Trace, MODES,
};
use reference::Tables;

use crate::difference::{self, Case, Difference};
use crate::tally::Tally;

/// Calls of a trace from fresh tables, from random sound tables, and on unsound ones.
const FROM_FRESH: usize = 1000;
const FROM_SOUND: usize = 60;
const ON_UNSOUND: usize = 3;
/// How often it is told how far the work is.
const TELL: Duration = Duration::from_secs(15);

/// What the workers share.
struct Work {
    seed: u64,
    calls: u64,
    began: Instant,
    next: AtomicU64,
    made: AtomicU64,
    tally: Mutex<Tally>,
    found: Mutex<Option<(u64, Case, Difference)>>,
}

/// Compares at least so many calls; the first difference becomes a story.
pub fn compare(calls: u64, seed: u64) -> Result<(), String> {
    let work = Work {
        seed,
        calls,
        began: Instant::now(),
        next: AtomicU64::new(0),
        made: AtomicU64::new(0),
        tally: Mutex::default(),
        found: Mutex::new(None),
    };
    let workers = std::thread::available_parallelism().map_or(1, usize::from);
    std::thread::scope(|scope| {
        for worker in 0..workers {
            let work = &work;
            scope.spawn(move || run(work, worker == 0));
        }
    });
    let seconds = work.began.elapsed().as_secs_f64();
    let made = work.made.into_inner();
    let tally = work.tally.into_inner().map_err(|_| "a worker failed")?;
    println!("calls of seed {seed}: {made}, {:.0} a second; {tally}", made as f64 / seconds);
    match work.found.into_inner().map_err(|_| "a worker failed")? {
        None => Ok(()),
        Some((number, case, found)) => Err(difference::story(seed, number, case, found)?),
    }
}

/// Takes case after case until enough calls are made or a difference is found. Every case below
/// one that was taken is played to its end, so that the lowest difference is the same in each run.
fn run(work: &Work, tells: bool) {
    let mut told = Instant::now();
    while work.made.load(Ordering::Relaxed) < work.calls && !is_found(work) {
        let number = work.next.fetch_add(1, Ordering::Relaxed);
        let case = some_case(work.seed, number);
        let mut tally = Tally::default();
        let found = difference::first(&case, &mut tally);
        work.made.fetch_add(case.records.len() as u64, Ordering::Relaxed);
        if let Ok(mut all) = work.tally.lock() {
            all.add(&tally);
        }
        if let Some(found) = found {
            keep_lowest(work, number, case, found);
        }
        if tells && told.elapsed() > TELL {
            told = Instant::now();
            let made = work.made.load(Ordering::Relaxed);
            eprintln!("fuzz: {made} calls, {:.0} s", work.began.elapsed().as_secs_f64());
        }
    }
}

/// Whether a difference was found.
fn is_found(work: &Work) -> bool {
    work.found.lock().map_or(true, |found| found.is_some())
}

/// Keeps the difference of the lowest case.
fn keep_lowest(work: &Work, number: u64, case: Case, difference: Difference) {
    if let Ok(mut found) = work.found.lock() {
        if found.as_ref().is_none_or(|(lowest, _, _)| number < *lowest) {
            *found = Some((number, case, difference));
        }
    }
}

/// The case of a number. Of 400 cases some 10 are long traces from fresh tables, 150 are traces from
/// random sound ones and 240 a few calls on unsound ones, which makes about half, half and a
/// twentieth of the calls.
fn some_case(seed: u64, number: u64) -> Case {
    let mut random = Random::new(seed.wrapping_add(number.wrapping_mul(0x9E37_79B9_7F4A_7C15)));
    let kind = random.below(400);
    let (mode, name) = MODES[random.below(MODES.len())];
    match kind {
        0..=9 => trace(
            &mut random,
            mode,
            format!("mode {name} from fresh tables"),
            Tables::fresh(),
            FROM_FRESH,
        ),
        10..=159 => {
            let tables = sound_tables(&mut random);
            trace(
                &mut random,
                mode,
                format!("mode {name} from random sound tables"),
                tables,
                FROM_SOUND,
            )
        }
        _ => on_unsound(&mut random),
    }
}

/// A trace that starts from these tables, some of its records cut off or with bytes behind them.
fn trace(random: &mut Random, mode: Mode, title: String, tables: Tables, calls: usize) -> Case {
    let words = tables.pack();
    let mut trace = Trace::new(mode, random.bits());
    trace.tables = tables;
    let records = (0..calls).map(|_| frayed(random, trace.next_record())).collect();
    Case { title, words, records }
}

/// The record as it is, or, now and then, cut off or with bytes behind it.
fn frayed(random: &mut Random, mut record: Vec<u8>) -> Vec<u8> {
    match random.below(100) {
        0 => record.truncate(random.below(record.len() + 1)),
        1 => record.extend((0..random.below(20)).map(|_| 0x2F)),
        _ => {}
    }
    record
}

/// A few calls on tables with one rule broken, with bits flipped, or of another length.
fn on_unsound(random: &mut Random) -> Case {
    let (title, words) = match random.below(5) {
        0..=2 => {
            let rule = some_breakable(random);
            (format!("tables that break the rule {rule:?}"), broken_tables(random, rule))
        }
        3 => {
            let mut words = sound_tables(random).pack();
            let bits = random.between(1, 3);
            flip_bits(random, &mut words, bits);
            (format!("tables with {bits} bits flipped"), words)
        }
        _ => {
            let mut words = sound_tables(random).pack();
            let count =
                if random.percent(50) { words.len() - 1 } else { random.below(words.len()) };
            words.truncate(count);
            (format!("tables of {count} words"), words)
        }
    };
    let mut trace = Trace::new(Mode::Damaged, random.bits());
    let records = (0..ON_UNSOUND).map(|_| frayed(random, trace.next_record())).collect();
    Case { title, words, records }
}
