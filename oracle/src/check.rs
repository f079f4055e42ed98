//! Runs plans on both engines, and tells where they disagree.

#![forbid(unsafe_code)]

use crate::figures::{Figures, Reached};
use crate::generate;
use crate::ours::{self, Ours};
use crate::plan::{Comparison, Engine, Outcome, Plan, Report};
use crate::random::Random;
use crate::{sheet, shrink};
use std::fmt;
use std::time::{Duration, Instant};

/// How much is to be checked.
#[derive(Clone, Copy, PartialEq, Eq, Debug)]
pub struct Limits {
    pub seed: u64,
    /// The index of the first plan.
    pub from: u64,
    /// At least so many plans.
    pub plans: u64,
    /// Till every figure is at least this.
    pub least: u64,
    /// But no longer than this.
    pub time: Option<Duration>,
}

/// Why the check came to its end without a disagreement.
#[derive(Clone, Copy, PartialEq, Eq, Debug)]
pub enum Finish {
    Reached,
    /// The time was over before every figure was reached.
    OutOfTime,
    /// So many plans that a figure must be out of reach.
    OutOfReach,
}

/// Two engines disagree, or both break a law.
#[derive(Clone, Debug)]
pub struct Disagreement {
    pub seed: u64,
    pub index: u64,
    /// What differs in the shrunk plan.
    pub what: String,
    /// The shrunk plan.
    pub sheet: String,
}

impl fmt::Display for Disagreement {
    fn fmt(&self, formatter: &mut fmt::Formatter<'_>) -> fmt::Result {
        writeln!(formatter, "seed {}, plan {}", self.seed, self.index)?;
        writeln!(formatter, "{}", self.what)?;
        write!(formatter, "{}", self.sheet)
    }
}

/// How many plans are tried for a figure that is not reached, in multiples of the wanted number.
const PATIENCE: u64 = 50;

/// Checks an engine, or runs the reference engine alone if there is none.
pub fn check(
    limits: &Limits,
    mut engine: Option<&mut dyn Engine>,
    figures: &mut Figures,
) -> Result<Finish, Box<Disagreement>> {
    let begun = Instant::now();
    let wanted = limits.plans.max(limits.least.saturating_mul(20)).max(1000);
    let out_of_reach = wanted.saturating_mul(PATIENCE);
    for index in limits.from.. {
        if figures.plans >= limits.plans && figures.least() >= limits.least {
            return Ok(Finish::Reached);
        }
        if limits.time.is_some_and(|time| begun.elapsed() >= time) {
            return Ok(Finish::OutOfTime);
        }
        if figures.plans >= out_of_reach {
            return Ok(Finish::OutOfReach);
        }
        let disagreement = |(what, sheet)| {
            Box::new(Disagreement {
                seed: limits.seed,
                index,
                what,
                sheet,
            })
        };
        check_plan(limits.seed, index, &mut engine, figures).map_err(disagreement)?;
        check_comparison(limits.seed, index, &mut engine, figures).map_err(disagreement)?;
    }
    Ok(Finish::OutOfReach)
}

/// What differs, and the shrunk plan.
type Failure = (String, String);

fn check_plan(
    seed: u64,
    index: u64,
    engine: &mut Option<&mut dyn Engine>,
    figures: &mut Figures,
) -> Result<(), Failure> {
    let plan = generate::plan(Random::for_plan(seed, 2 * index));
    let (expected, reached) = run_reference(&plan);
    figures.count_plan(&plan, &expected, &reached);
    let Some(engine) = engine else {
        return Ok(());
    };
    let got = engine.run(&plan);
    if difference(&expected, &got, reached.deepest).is_none() {
        return Ok(());
    }
    let mut differs = |plan: &Plan| {
        let (expected, reached) = run_reference(plan);
        difference(&expected, &engine.run(plan), reached.deepest)
    };
    let small = shrink::plan(plan, |plan| differs(plan).is_some());
    let what = differs(&small).unwrap_or_else(|| "they do not always disagree".to_owned());
    Err((what, sheet::of_plan(&small)))
}

fn run_reference(plan: &Plan) -> (Outcome, Reached) {
    let mut outcome = Outcome::before(plan);
    let mut reached = Reached::default();
    ours::run_watched(plan, &mut outcome, &mut reached);
    (outcome, reached)
}

fn check_comparison(
    seed: u64,
    index: u64,
    engine: &mut Option<&mut dyn Engine>,
    figures: &mut Figures,
) -> Result<(), Failure> {
    let comparison = generate::comparison(Random::for_plan(seed, 2 * index + 1));
    let report = Ours.compare(&comparison);
    figures.count_comparison(&comparison, &report);
    let mut differs = |comparison: &Comparison| {
        let expected = Ours.compare(comparison);
        let got = engine.as_mut().map(|engine| engine.compare(comparison));
        report_difference(&expected, &got.unwrap_or(expected))
    };
    if differs(&comparison).is_none() {
        return Ok(());
    }
    let small = shrink::comparison(comparison, |comparison| differs(comparison).is_some());
    let what = differs(&small).unwrap_or_else(|| "they do not always disagree".to_owned());
    Err((what, sheet::of_comparison(&small)))
}

/// What differs between two reports, or breaks noninterference in both.
pub fn report_difference(expected: &Report, got: &Report) -> Option<String> {
    if expected != got {
        return Some(told("report", expected, got));
    }
    let broken = expected.alike() && expected.seen();
    broken.then(|| format!("alike stations seen to differ, by both engines: {expected:?}"))
}

/// What differs first between what two engines made of a plan. Entries of the stack are compared where they are in use
/// in the end, and where they never were in use.
pub fn difference(expected: &Outcome, got: &Outcome, deepest: usize) -> Option<String> {
    if expected.end.code != got.end.code {
        return Some(told("end", &expected.end, &got.end));
    }
    let depth = expected.end.depth as usize;
    let in_use = |outcome: &Outcome| outcome.stack[..depth].to_vec();
    let beyond = deepest.max(depth);
    let untouched = |outcome: &Outcome| outcome.stack[beyond..].to_vec();
    list_difference("reply", 0, &expected.replies, &got.replies)
        .or_else(|| (expected.end != got.end).then(|| told("end", &expected.end, &got.end)))
        .or_else(|| list_difference("cell", 0, &expected.memory, &got.memory))
        .or_else(|| list_difference("log", 0, &expected.log, &got.log))
        .or_else(|| list_difference("stack", 0, &in_use(expected), &in_use(got)))
        .or_else(|| {
            let (expected, got) = (untouched(expected), untouched(got));
            list_difference("stack", beyond, &expected, &got)
        })
}

fn list_difference<T: PartialEq + fmt::Debug>(
    what: &str,
    first: usize,
    expected: &[T],
    got: &[T],
) -> Option<String> {
    if expected.len() != got.len() {
        return Some(told(
            &format!("{what}: length"),
            &expected.len(),
            &got.len(),
        ));
    }
    let place = expected
        .iter()
        .zip(got)
        .position(|(one, other)| one != other)?;
    let what = format!("{what} {}", first + place);
    Some(told(&what, &expected[place], &got[place]))
}

fn told(what: &str, expected: &impl fmt::Debug, got: &impl fmt::Debug) -> String {
    format!("{what}\n  expected {expected:?}\n  got      {got:?}")
}

#[cfg(test)]
mod tests;
