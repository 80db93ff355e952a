//! Times: the shortest of several rounds, so that what else the machine does falls out. The things of a group take turns in each round, so that a
//! slow moment of the machine does not fall on one of them alone.

use std::time::Instant;

/// What one run of something does.
pub type Run = Box<dyn FnMut()>;

/// Something to measure: its name, how many things one run does, and what makes it ready, which is done before the first run alone.
pub struct Work {
    pub name: String,
    pub things: u32,
    make: Option<Box<dyn FnOnce() -> Run>>,
    run: Option<Run>,
}

impl Work {
    pub fn new(name: impl Into<String>, make: impl FnOnce() -> Run + 'static) -> Work {
        Work { name: name.into(), things: 1, make: Some(Box::new(make)), run: None }
    }

    /// The same, where one run does so many things and the time of one is asked.
    pub fn each_of(self, things: u32) -> Work {
        Work { things, ..self }
    }

    pub fn repeat(&mut self, times: u32) {
        if let Some(make) = self.make.take() {
            self.run = Some(make());
        }
        if let Some(run) = &mut self.run {
            for _ in 0..times {
                run();
            }
        }
    }

    /// Nanoseconds that one thing takes, over so many runs.
    fn nanoseconds(&mut self, runs: u32) -> f64 {
        let began = Instant::now();
        self.repeat(runs);
        began.elapsed().as_nanos() as f64 / f64::from(runs * self.things)
    }
}

/// What is measured together: the first is what the others are held against.
pub struct Group {
    pub name: &'static str,
    pub rounds: u32,
    pub runs: u32,
    pub works: Vec<Work>,
}

impl Group {
    /// Nanoseconds that each of its things takes: the best of the rounds.
    pub fn nanoseconds(&mut self) -> Vec<f64> {
        let mut best = vec![f64::MAX; self.works.len()];
        self.works.iter_mut().for_each(|work| work.repeat(1));
        for _ in 0..self.rounds {
            for (best, work) in best.iter_mut().zip(&mut self.works) {
                *best = best.min(work.nanoseconds(self.runs));
            }
        }
        best
    }
}
