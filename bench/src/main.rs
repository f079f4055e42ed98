//! Runs the same programs on the proved engine and on the reference engine in plain Rust, by turns, and compares their times.

#![forbid(unsafe_code)]

mod measure;
mod programs;
mod tables;

use oracle::plan::Engine;
use programs::Program;
use std::process::ExitCode;

const USAGE: &str = "usage: bench [speed|growth|stations|comparisons|sizes]..
       bench one ours|rust PROGRAM KIND POLICY STEPS   (one program alone, for a profiler)";

fn main() -> ExitCode {
    let words: Vec<String> = std::env::args().skip(1).collect();
    let words: Vec<&str> = words.iter().map(String::as_str).collect();
    if let ["one", engine, program, kind, policy, steps] = words[..] {
        return match single(engine, program, kind, policy, steps) {
            Some(done) => {
                println!("{done} steps");
                ExitCode::SUCCESS
            }
            None => misuse(),
        };
    }
    let tables: &[&str] = if words.is_empty() {
        &["speed", "growth", "stations", "comparisons", "sizes"]
    } else {
        &words
    };
    for table in tables {
        match *table {
            "speed" => tables::speed(),
            "growth" => tables::growth(),
            "stations" => tables::stations(),
            "comparisons" => tables::comparisons(),
            "sizes" => tables::sizes(),
            _ => return misuse(),
        }
    }
    ExitCode::SUCCESS
}

fn misuse() -> ExitCode {
    eprintln!("{USAGE}");
    ExitCode::from(2)
}

/// Runs one program on one engine for about so many steps, and answers how many they were.
fn single(engine: &str, program: &str, kind: &str, policy: &str, steps: &str) -> Option<u64> {
    let program = programs::all()
        .into_iter()
        .find(|known| known.name == program)?;
    let (kind, policy, steps) = (
        kind.parse().ok()?,
        policy.parse().ok()?,
        steps.parse().ok()?,
    );
    match engine {
        "ours" => Some(run(
            &mut oracle::foreign::Foreign,
            &program,
            kind,
            policy,
            steps,
        )),
        "rust" => Some(run(&mut oracle::ours::Ours, &program, kind, policy, steps)),
        _ => None,
    }
}

fn run(engine: &mut impl Engine, program: &Program, kind: u32, policy: u32, steps: u32) -> u64 {
    let (plan, times) = program.plan(kind, policy, steps);
    measure::sample(engine, &plan, times).steps
}
