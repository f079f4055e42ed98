//! Wrong engines must be found, and their disagreements shrunk.

use super::*;
use crate::labels::{Label, Level};
use crate::plan::operation;
use crate::policy::{Direct, Name, Policy, Request, Verdict};

const LIMITS: Limits = Limits {
    seed: 7,
    from: 0,
    plans: 3000,
    least: 0,
    time: None,
};

/// Checks an engine that is known to be wrong.
fn found(engine: &mut dyn Engine) -> Box<Disagreement> {
    let result = check(&LIMITS, Some(engine), &mut Figures::default());
    result.expect_err("the engine is wrong")
}

/// The program and the calls of a sheet.
fn lines_of(sheet: &str) -> (Vec<&str>, Vec<&str>) {
    let (_, rest) = sheet.split_once("program\n").unwrap();
    let (program, calls) = rest.split_once("calls\n").unwrap();
    let words = |text| str::lines(text).map(str::trim).collect();
    (words(program), words(calls))
}

/// An engine that gives a stop a wrong number.
struct WrongStop;

impl Engine for WrongStop {
    fn run_on(&mut self, plan: &Plan, outcome: &mut Outcome) {
        Ours.run_on(plan, outcome);
        let states = outcome.replies.iter_mut().map(|reply| &mut reply.state);
        for state in states.chain([&mut outcome.end.state]) {
            if *state == 24 {
                *state = 22;
            }
        }
    }

    fn compare(&mut self, comparison: &Comparison) -> Report {
        Ours.compare(comparison)
    }
}

#[test]
fn a_wrong_stop_is_found_and_shrunk() {
    let disagreement = found(&mut WrongStop);
    assert!(disagreement.what.contains("got"), "{disagreement}");
    let (program, calls) = lines_of(&disagreement.sheet);
    assert_eq!(program.len(), 2, "{disagreement}");
    assert!(["load", "store"].contains(&program[1]) && program[0].starts_with("push"));
    assert_eq!(calls[0], "start");
    assert_eq!(calls.len(), 2, "{disagreement}");
}

/// A policy with one wrong row: the frame of a call takes the label of the target too.
#[derive(Default)]
struct WrongRow;

impl<L: Label> Policy<L> for WrongRow {
    fn ask(&mut self, request: &Request<L>) -> Option<Verdict<L>> {
        let verdict = Direct.ask(request)?;
        Some(match request.name {
            Name::Call => Verdict {
                result: request.a.join(request.counter),
                ..verdict
            },
            _ => verdict,
        })
    }
}

/// An engine with that policy, for levels and the first policy.
struct WrongPolicy;

impl Engine for WrongPolicy {
    fn run_on(&mut self, plan: &Plan, outcome: &mut Outcome) {
        if (plan.kind, plan.policy) == (0, 0) {
            ours::run_with::<Level, WrongRow>(plan, outcome);
        } else {
            Ours.run_on(plan, outcome);
        }
    }

    fn compare(&mut self, comparison: &Comparison) -> Report {
        Ours.compare(comparison)
    }
}

#[test]
fn a_wrong_row_is_found_and_shrunk() {
    let disagreement = found(&mut WrongPolicy);
    let (program, calls) = lines_of(&disagreement.sheet);
    assert!(
        program.iter().any(|line| line.starts_with("call")),
        "{disagreement}"
    );
    assert!(program.len() <= 4 && calls.len() <= 2, "{disagreement}");
    assert!(
        disagreement
            .sheet
            .starts_with("# policy: direct\nlabels levels\n")
    );
}

/// An engine that writes an entry that is not in use, or a part of what codes nothing.
struct Scribbler;

impl Engine for Scribbler {
    fn run_on(&mut self, plan: &Plan, outcome: &mut Outcome) {
        Ours.run_on(plan, outcome);
        if plan
            .program
            .first()
            .is_some_and(|first| first.code == operation::HALT)
            && let Some(last) = outcome.stack.last_mut()
        {
            last.number += 1;
        }
    }

    fn compare(&mut self, comparison: &Comparison) -> Report {
        Ours.compare(comparison)
    }
}

#[test]
fn scribbling_beyond_the_stack_is_found() {
    let disagreement = found(&mut Scribbler);
    assert!(disagreement.what.starts_with("stack"), "{disagreement}");
    let (program, calls) = lines_of(&disagreement.sheet);
    assert_eq!((program, calls.len()), (vec!["halt"], 0));
}

/// An engine whose comparison takes hidden commands for visible ones.
struct WrongComparison;

impl Engine for WrongComparison {
    fn run_on(&mut self, plan: &Plan, outcome: &mut Outcome) {
        Ours.run_on(plan, outcome);
    }

    fn compare(&mut self, comparison: &Comparison) -> Report {
        let report = Ours.compare(comparison);
        let top = Comparison {
            level: crate::kinds::Kind::of(comparison.kind).top(),
            ..comparison.clone()
        };
        Report {
            commands: Ours.compare(&top).commands,
            ..report
        }
    }
}

#[test]
fn a_wrong_comparison_is_found_and_shrunk() {
    let disagreement = found(&mut WrongComparison);
    assert!(disagreement.what.starts_with("report"), "{disagreement}");
    assert!(disagreement.sheet.lines().count() < 40, "{disagreement}");
}

#[test]
fn the_reference_engine_agrees_with_itself_and_keeps_the_law() {
    let mut figures = Figures::default();
    let limits = Limits {
        plans: 1500,
        ..LIMITS
    };
    let finish = check(&limits, Some(&mut Ours), &mut figures);
    assert!(matches!(finish, Ok(Finish::Reached)));
    assert_eq!((figures.plans, figures.comparisons), (1500, 1500));
    assert!(figures.laws > 300);
}

#[test]
fn a_broken_law_is_told() {
    let report = Report {
        programs: -1,
        memories: -1,
        calls: -1,
        commands: 0,
        cell: -1,
        ..Report::default()
    };
    assert!(report_difference(&report, &report).is_some());
    let kept = Report {
        commands: -1,
        ..report
    };
    assert!(report_difference(&kept, &kept).is_none());
}

/// Policies with one hole each, through which hidden numbers are told.
mod holes {
    use super::*;

    /// A store tests the address only.
    #[derive(Default)]
    pub struct Store;

    impl<L: Label> Policy<L> for Store {
        fn ask(&mut self, request: &Request<L>) -> Option<Verdict<L>> {
            if request.name == Name::Store && request.a.flows_to(request.c) {
                return Some(Verdict {
                    counter: request.counter,
                    result: request.a.join(request.b).join(request.counter),
                });
            }
            Direct.ask(request)
        }
    }

    /// A result does not take the label of the branch that made it.
    #[derive(Default)]
    pub struct Return;

    impl<L: Label> Policy<L> for Return {
        fn ask(&mut self, request: &Request<L>) -> Option<Verdict<L>> {
            let verdict = Direct.ask(request)?;
            Some(match request.name {
                Name::Return => Verdict {
                    result: request.b,
                    ..verdict
                },
                _ => verdict,
            })
        }
    }

    /// A command does not take the label of the program counter.
    #[derive(Default)]
    pub struct Output;

    impl<L: Label> Policy<L> for Output {
        fn ask(&mut self, request: &Request<L>) -> Option<Verdict<L>> {
            let verdict = Direct.ask(request)?;
            Some(match request.name {
                Name::Output => Verdict {
                    result: request.a,
                    ..verdict
                },
                _ => verdict,
            })
        }
    }

    /// A branch does not raise the program counter.
    #[derive(Default)]
    pub struct Branch;

    impl<L: Label> Policy<L> for Branch {
        fn ask(&mut self, request: &Request<L>) -> Option<Verdict<L>> {
            let verdict = Direct.ask(request)?;
            Some(match request.name {
                Name::Bnz | Name::Jump => Verdict {
                    counter: request.counter,
                    ..verdict
                },
                _ => verdict,
            })
        }
    }

    /// A loaded number does not take the cell's label.
    #[derive(Default)]
    pub struct Load;

    impl<L: Label> Policy<L> for Load {
        fn ask(&mut self, request: &Request<L>) -> Option<Verdict<L>> {
            let verdict = Direct.ask(request)?;
            Some(match request.name {
                Name::Load => Verdict {
                    result: request.a,
                    ..verdict
                },
                _ => verdict,
            })
        }
    }
}

/// How many comparisons of alike stations with levels show a difference under a policy.
fn told_by<P: Policy<Level> + Default>() -> usize {
    let comparisons = (0..20_000).map(|index| generate::comparison(Random::for_plan(11, index)));
    let levels = comparisons.filter(|comparison| comparison.kind == 0);
    let reports = levels.filter_map(|one| ours::compare_with::<Level, P>(&one));
    reports
        .filter(|report| report.alike() && report.seen())
        .count()
}

#[test]
fn the_law_finds_policies_with_holes() {
    let told = [
        told_by::<holes::Store>(),
        told_by::<holes::Return>(),
        told_by::<holes::Output>(),
        told_by::<holes::Branch>(),
        told_by::<holes::Load>(),
    ];
    println!("{told:?}");
    assert!(told.iter().all(|&count| count > 0), "{told:?}");
    assert_eq!(told_by::<Direct>(), 0);
}
