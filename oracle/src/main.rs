//! The command line of the oracle.

#![forbid(unsafe_code)]

use oracle::check::{self, Finish, Limits};
use oracle::figures::Figures;
use oracle::plan::Engine;
use oracle::random;
use std::process::ExitCode;
use std::time::Duration;

const HELP: &str = "\
oracle: checks an engine for labelled stack machines against an independent reference engine

    oracle check [OPTIONS]    random plans on both engines; every answer must agree
    oracle self [OPTIONS]     the same plans on the reference engine alone, for the figures
    oracle --help             this text

    --seed N       the same plans again (a fresh seed, which is told, if left out)
    --plans N      at least so many plans (1000; with --seconds, as many as there is time for)
    --least N      on until every figure is at least this (100)
    --seconds N    but no longer than this
    --from N       begin with this plan of the seed (0)

Status: 0 all agree, 1 a disagreement or a figure out of reach, 2 a wrong command line.
";

/// What the command line asks for.
#[derive(Debug, PartialEq, Eq)]
enum Command {
    Help,
    Check(Limits),
    Alone(Limits),
}

fn main() -> ExitCode {
    let words: Vec<String> = std::env::args_os()
        .skip(1)
        .map(|word| word.to_string_lossy().into_owned())
        .collect();
    match parse(&words) {
        Ok(Command::Help) => {
            print!("{HELP}");
            ExitCode::SUCCESS
        }
        Ok(Command::Alone(limits)) => run(&limits, None),
        Ok(Command::Check(limits)) => check_engine(&limits),
        Err(what) => {
            eprintln!("oracle: {what}; see oracle --help");
            ExitCode::from(2)
        }
    }
}

#[cfg(feature = "engine")]
fn check_engine(limits: &Limits) -> ExitCode {
    run(limits, Some(&mut oracle::foreign::Foreign))
}

#[cfg(not(feature = "engine"))]
fn check_engine(_: &Limits) -> ExitCode {
    eprintln!(
        "oracle: built without the engine under test (cargo feature `engine`); \
         `oracle self` runs the reference engine alone"
    );
    ExitCode::from(2)
}

fn run(limits: &Limits, engine: Option<&mut dyn Engine>) -> ExitCode {
    println!("seed {}", limits.seed);
    let alone = engine.is_none();
    let mut figures = Figures::default();
    let finish = match check::check(limits, engine, &mut figures) {
        Ok(finish) => finish,
        Err(disagreement) => {
            println!("{disagreement}");
            println!("oracle: the engines disagree");
            return ExitCode::FAILURE;
        }
    };
    print!("{figures}");
    let what = if alone {
        "on the reference engine alone"
    } else {
        "all agree"
    };
    let least = figures.least();
    match finish {
        Finish::Reached => {}
        Finish::OutOfTime if least >= limits.least => {}
        Finish::OutOfTime => println!("the time was over before every figure was reached"),
        Finish::OutOfReach => {
            println!("oracle: a figure is out of reach: the least is {least}");
            return ExitCode::FAILURE;
        }
    }
    println!(
        "oracle: {} plans, {} calls, {} steps, {} comparisons: {what}",
        figures.plans, figures.calls, figures.steps, figures.comparisons
    );
    ExitCode::SUCCESS
}

fn parse(words: &[String]) -> Result<Command, String> {
    let Some((command, options)) = words.split_first() else {
        return Err("expected a command".to_owned());
    };
    if words.iter().any(|word| word == "--help" || word == "-h") {
        return Ok(Command::Help);
    }
    match command.as_str() {
        "help" => Ok(Command::Help),
        "check" => Ok(Command::Check(parse_limits(options)?)),
        "self" => Ok(Command::Alone(parse_limits(options)?)),
        other => Err(format!("there is no command {other}")),
    }
}

fn parse_limits(options: &[String]) -> Result<Limits, String> {
    let mut seed = None;
    let mut plans = None;
    let mut limits = Limits {
        seed: 0,
        from: 0,
        plans: 0,
        least: 100,
        time: None,
    };
    let mut words = options.iter();
    while let Some(option) = words.next() {
        let mut number = || match words.next() {
            None => Err(format!("{option} needs a number")),
            Some(word) => word
                .parse::<u64>()
                .map_err(|_| format!("{option} needs a number, and {word} is none")),
        };
        match option.as_str() {
            "--seed" => seed = Some(number()?),
            "--plans" => plans = Some(number()?),
            "--least" => limits.least = number()?,
            "--from" => limits.from = number()?,
            "--seconds" => limits.time = Some(Duration::from_secs(number()?)),
            other => return Err(format!("there is no option {other}")),
        }
    }
    limits.seed = seed.unwrap_or_else(random::fresh_seed);
    limits.plans = match (plans, limits.time) {
        (Some(plans), _) => plans,
        (None, Some(_)) => u64::MAX,
        (None, None) => 1000,
    };
    Ok(limits)
}

#[cfg(test)]
mod tests {
    use super::*;

    fn parsed(line: &str) -> Result<Command, String> {
        let words: Vec<_> = line.split_whitespace().map(str::to_owned).collect();
        parse(&words)
    }

    #[test]
    fn command_lines() {
        let limits = Limits {
            seed: 3,
            from: 0,
            plans: 5,
            least: 100,
            time: Some(Duration::from_secs(2)),
        };
        let line = "check --seed 3 --plans 5 --seconds 2";
        assert_eq!(parsed(line), Ok(Command::Check(limits)));
        let timed = parsed("self --seed 1 --seconds 2");
        assert!(matches!(timed, Ok(Command::Alone(limits)) if limits.plans == u64::MAX));
        assert_eq!(parsed("check --help"), Ok(Command::Help));
        for wrong in ["", "chek", "self --seed", "self --seed x", "self --sed 1"] {
            assert!(parsed(wrong).is_err(), "{wrong}");
        }
    }
}
