//! The test of soundness, served calls and the longest walk, beside one pass over the words.

use std::hint::black_box;

use tickbutton::{archive, Answer};

use crate::clock::{Group, Work};
use crate::filled::{self, Filled};

/// How many records one run of serve_run serves.
const RUN: usize = 1_000;

/// The names of two measurements that are compared.
pub const SOUND_FULL: &str = "sound, full";
pub const SOUND_ONE_CHAIN: &str = "sound, full, all names in one chain, and all holds";

/// One pass over the words that sums them in 64 bits, so that no sum runs over.
fn pass() -> Work {
    Work::new("one pass that sums the 8,512 words", || {
        let words = filled::filled(1).words;
        Box::new(move || {
            black_box(black_box(&words).iter().map(|word| u64::from(*word)).sum::<u64>());
        })
    })
}

fn sound(name: &str, make: impl FnOnce() -> Filled + 'static) -> Work {
    Work::new(name, || {
        let words = make().words;
        Box::new(move || {
            black_box(archive::sound(black_box(&words)));
        })
    })
}

fn serve(name: &str, make: impl FnOnce() -> Filled + 'static) -> Work {
    Work::new(format!("serve a check, {name}"), || {
        let Filled { mut words, check, .. } = make();
        Box::new(move || {
            black_box(archive::serve(black_box(&mut words), black_box(&check)));
        })
    })
}

fn serve_run(name: &str, make: impl FnOnce() -> Filled + 'static) -> Work {
    let work = Work::new(format!("serve_run, each of {RUN} checks, {name}"), || {
        let Filled { mut words, check, .. } = make();
        let records = check.repeat(RUN);
        let mut answers = vec![0; RUN];
        Box::new(move || {
            black_box(archive::serve_run(black_box(&mut words), black_box(&records), &mut answers));
        })
    });
    work.each_of(RUN as u32)
}

/// A walk over these tables, of the path that is theirs.
fn walk(name: &str, make: impl FnOnce() -> (Filled, Vec<u8>) + 'static) -> Work {
    Work::new(format!("sound, then walk {name}"), move || {
        let (tables, path) = make();
        let mut goal = [0; archive::GOAL_NUMBERS];
        let answer = archive::walk(&tables.words, &path, true, &mut goal);
        assert!(matches!(answer, Answer::Done(1..)), "the walk leads to {answer}");
        Box::new(move || {
            black_box(archive::walk(black_box(&tables.words), black_box(&path), true, &mut goal));
        })
    })
}

pub fn group() -> Group {
    let works = vec![
        pass(),
        sound("sound, fresh", filled::fresh),
        sound("sound, half full", || filled::filled(2)),
        sound(SOUND_FULL, || filled::filled(1)),
        sound("sound, full, 120 nodes links with targets of 60 bytes", filled::full_of_links),
        sound(SOUND_ONE_CHAIN, filled::one_chain),
        serve("fresh but for one process", filled::nearly_fresh),
        serve("half full", || filled::filled(2)),
        serve("full", || filled::filled(1)),
        serve_run("fresh but for one process", filled::nearly_fresh),
        serve_run("half full", || filled::filled(2)),
        serve_run("full", || filled::filled(1)),
        walk("`/`, the longest walk's tables", || (filled::long_walk().0, b"/".to_vec())),
        walk("127 names and 8 links of 32 names each, the same tables", filled::long_walk),
        walk("127 names and 8 links of 32 names each, one within the other", filled::nested_walk),
    ];
    Group { name: "tables", rounds: 25, runs: 200, works }
}
