//! The tables that are printed.

use crate::measure::{Sample, median, most_memory, sample};
use crate::programs::{self, Program};
use oracle::foreign::Foreign;
use oracle::ours::Ours;
use oracle::plan::{
    Call, Comparison, Engine, Entry, Number, Operation, Plan, Side, call, operation,
};
use std::time::Instant;

/// How often each is measured, by turns.
const REPETITIONS: usize = 9;
const STEPS: u32 = 5_000_000;
const KINDS: [(&str, u32); 3] = [("levels", 0), ("sets", 1), ("pairs", 3)];
const POLICIES: [(&str, u32); 3] = [("direct", 0), ("rows", 1), ("cached", 2)];

/// Steps a second of both engines.
pub fn speed() {
    println!(
        "{:<20} {:<8} {:<8} {:>10} {:>10} {:>7}",
        "program", "labels", "policy", "ours", "plain Rust", "ratio"
    );
    for (policy_name, policy) in POLICIES {
        let mut logarithms = Vec::new();
        for program in programs::all() {
            for (kind_name, kind) in KINDS {
                let (ours, rust) = side_by_side(&program, kind, policy);
                logarithms.push((ours / rust).ln());
                println!(
                    "{:<20} {kind_name:<8} {policy_name:<8} {:>8.1} M {:>8.1} M {:>7.2}",
                    program.name,
                    ours / 1e6,
                    rust / 1e6,
                    ours / rust
                );
            }
        }
        let mean = logarithms.iter().sum::<f64>() / logarithms.len() as f64;
        println!(
            "geometric mean of the ratios, {policy_name}: {:.2}\n",
            mean.exp()
        );
    }
}

/// The medians of ours and of plain Rust, measured by turns.
fn side_by_side(program: &Program, kind: u32, policy: u32) -> (f64, f64) {
    let (plan, times) = program.plan(kind, policy, STEPS);
    medians(&plan, times, Sample::steps_per_second)
}

/// The medians of what both engines do in a second, measured by turns.
fn medians(plan: &Plan, times: usize, rate: impl Fn(Sample) -> f64) -> (f64, f64) {
    let (mut ours, mut rust) = (Vec::new(), Vec::new());
    for _ in 0..REPETITIONS {
        ours.push(rate(sample(&mut Foreign, plan, times)));
        rust.push(rate(sample(&mut Ours, plan, times)));
    }
    (median(ours), median(rust))
}

/// Stations a second: a plan decoded, its station made, started and stopped at its fifth step, and what is left of it coded.
pub fn stations() {
    for (kind_name, kind) in KINDS {
        let (plan, times) = programs::shortest().plan(kind, 0, STEPS / 4);
        let (ours, rust) = medians(&plan, times, Sample::runs_per_second);
        println!(
            "stations a second, {kind_name}: ours {:.2} M, plain Rust {:.2} M, ratio {:.2}",
            ours / 1e6,
            rust / 1e6,
            ours / rust
        );
    }
    println!();
}

/// The time of a run against its steps.
pub fn growth() {
    println!("{:>12} {:>14} {:>12}", "steps", "time", "ns a step");
    for power in 3..=8 {
        let steps = 10_u32.pow(power);
        let (plan, _) = programs::counting().plan(0, 0, steps);
        let times: Vec<f64> = (0..REPETITIONS.min(5))
            .map(|_| sample(&mut Foreign, &plan, 1).time.as_secs_f64())
            .collect();
        let time = median(times);
        println!(
            "{steps:>12} {:>11.3} ms {:>12.2}",
            time * 1e3,
            time * 1e9 / f64::from(steps)
        );
    }
    println!();
}

/// Comparisons of two short runs a second: 3 calls and 10 steps on each side.
pub fn comparisons() {
    let comparison = short_comparison();
    let count = 100_000;
    let (mut ours, mut rust) = (Vec::new(), Vec::new());
    for _ in 0..REPETITIONS {
        ours.push(compare(&mut Foreign, &comparison, count));
        rust.push(compare(&mut Ours, &comparison, count));
    }
    let (ours, rust) = (median(ours), median(rust));
    println!(
        "comparisons a second: ours {:.2} M, plain Rust {:.2} M, ratio {:.2}\n",
        ours / 1e6,
        rust / 1e6,
        ours / rust
    );
}

fn compare(engine: &mut impl Engine, comparison: &Comparison, count: u32) -> f64 {
    let start = Instant::now();
    for _ in 0..count {
        let report = engine.compare(comparison);
        assert!(report.alike() && !report.seen(), "the runs are alike");
    }
    f64::from(count) / start.elapsed().as_secs_f64()
}

/// Two stations that differ in an entered number that the observer may not know.
fn short_comparison() -> Comparison {
    let plain = |code| Operation {
        code,
        ..Operation::default()
    };
    let push = |value| Operation {
        code: operation::PUSH,
        value,
        ..Operation::default()
    };
    let program = vec![
        push(0),
        plain(operation::LOAD),
        push(1),
        plain(operation::ADD),
        push(0),
        plain(operation::STORE),
        push(0),
        plain(operation::LOAD),
        plain(operation::OUTPUT),
        plain(operation::NOOP),
        plain(operation::HALT),
    ];
    let side = |value| Side {
        program: program.clone(),
        memory: vec![Number { value: 0, label: 3 }; 16],
        calls: vec![
            Call {
                code: call::ENTER,
                value,
                label: 3,
                ..Call::default()
            },
            Call {
                code: call::START,
                ..Call::default()
            },
            Call {
                code: call::GO,
                index: 100,
                ..Call::default()
            },
        ],
    };
    Comparison {
        kind: 0,
        policy: 0,
        level: 1,
        stack: 64,
        log: 64,
        first: side(40),
        second: side(7),
    }
}

/// The largest station, and the memory that a long run takes.
pub fn sizes() {
    let plan = largest();
    let sample_of_it = sample(&mut Foreign, &plan, 1);
    println!(
        "the largest station, made and run through its {} steps: {:.3} ms",
        sample_of_it.steps,
        sample_of_it.time.as_secs_f64() * 1e3
    );
    let before = most_memory();
    let (plan, _) = programs::counting().plan(0, 0, 100_000_000);
    sample(&mut Foreign, &plan, 1);
    let after = most_memory();
    match (before, after) {
        (Some(before), Some(after)) => println!(
            "most memory of this process before and after 100 million steps more: {before} kB, {after} kB"
        ),
        _ => println!("most memory of this process: the system does not tell"),
    }
}

/// 4,096 operations, 1,024 cells, 1,024 stack entries and 4,096 commands: fills the stack, and then the log from cells.
fn largest() -> Plan {
    let push = |value| Operation {
        code: operation::PUSH,
        value,
        ..Operation::default()
    };
    let plain = |code| Operation {
        code,
        ..Operation::default()
    };
    let mut program: Vec<Operation> = (0..1024).map(push).collect();
    while program.len() + 4 < 4096 {
        program.extend([plain(operation::LOAD), plain(operation::OUTPUT), push(1023)]);
    }
    program.resize(4095, plain(operation::NOOP));
    program.push(plain(operation::HALT));
    let low = Number::default();
    let start = Call {
        code: call::START,
        ..Call::default()
    };
    let go = Call {
        code: call::GO,
        index: 10_000,
        ..Call::default()
    };
    Plan {
        kind: 0,
        policy: 0,
        program,
        memory: vec![low; 1024],
        stack: vec![Entry::default(); 1024],
        log: vec![low; 4096],
        calls: vec![start, go],
        other_replies: 0,
    }
}
