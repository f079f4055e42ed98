//! Times.

use oracle::plan::{Engine, Outcome, Plan};
use std::time::{Duration, Instant};

/// How long some runs took together, and how many steps they did.
#[derive(Clone, Copy, Debug)]
pub struct Sample {
    pub time: Duration,
    pub runs: usize,
    pub steps: u64,
}

impl Sample {
    pub fn steps_per_second(self) -> f64 {
        self.steps as f64 / self.time.as_secs_f64()
    }

    pub fn runs_per_second(self) -> f64 {
        self.runs as f64 / self.time.as_secs_f64()
    }
}

/// Runs a plan so many times.
pub fn sample(engine: &mut impl Engine, plan: &Plan, runs: usize) -> Sample {
    let mut outcomes = vec![Outcome::before(plan); runs];
    let start = Instant::now();
    for outcome in &mut outcomes {
        engine.run_on(plan, outcome);
    }
    let time = start.elapsed();
    assert!(
        outcomes.iter().all(|outcome| outcome.end.code == 0),
        "a plan was not run"
    );
    let steps = outcomes.iter().map(Outcome::steps).sum();
    Sample { time, runs, steps }
}

/// The middle one of an odd count of numbers.
pub fn median(mut numbers: Vec<f64>) -> f64 {
    numbers.sort_by(f64::total_cmp);
    numbers[numbers.len() / 2]
}

/// The most memory that this process has had so far, in kB, where the system tells it.
pub fn most_memory() -> Option<u64> {
    let status = std::fs::read_to_string("/proc/self/status").ok()?;
    let line = status.lines().find(|line| line.starts_with("VmHWM:"))?;
    line.split_whitespace().nth(1)?.parse().ok()
}
