//! Random plans and comparisons.

#![forbid(unsafe_code)]

mod calls;
mod pairs;
mod programs;

use crate::kinds::Kind;
use crate::plan::{Call, Entry, KINDS, Number, Operation, POLICIES, Plan, call};
use crate::random::Random;
use crate::station::Part;
pub use pairs::comparison;

/// What one plan draws its numbers and labels from.
#[derive(Debug)]
struct Source {
    random: Random,
    kind: Kind,
    /// The labels that the plan uses mostly.
    palette: Vec<u32>,
}

impl Source {
    fn new(random: Random, kind: u32) -> Self {
        let mut source = Self {
            random,
            kind: Kind::of(kind),
            palette: vec![0],
        };
        for _ in 0..source.random.within(0..=3) {
            let label = source.kind.random(&mut source.random);
            source.palette.push(label);
        }
        source
    }

    /// A label from the palette mostly.
    fn label(&mut self) -> u32 {
        if self.random.percent(4) {
            self.any_label()
        } else {
            self.random.pick(&self.palette)
        }
    }

    fn any_label(&mut self) -> u32 {
        match self.random.below(12) {
            0 => self.kind.top(),
            _ => self.kind.random(&mut self.random),
        }
    }

    /// A small number mostly.
    fn value(&mut self) -> i32 {
        match self.random.below(100) {
            0..75 => self.random.within(0..=12) as i32 - 3,
            75..92 => self.random.within(0..=200) as i32 - 100,
            92..96 => self.random.pick(&[i32::MIN, i32::MAX, i32::MIN + 1, -1]),
            _ => self.random.next_number() as i32,
        }
    }

    fn number(&mut self) -> Number {
        Number {
            value: self.value(),
            label: self.label(),
        }
    }

    fn numbers(&mut self, count: usize) -> Vec<Number> {
        (0..count).map(|_| self.number()).collect()
    }

    fn stack(&mut self, count: usize) -> Vec<Entry> {
        let entry = |source: &mut Self| {
            let number = source.number();
            Entry {
                number: number.value.into(),
                label: number.label,
                form: source.random.below(3) as u32,
            }
        };
        (0..count).map(|_| entry(self)).collect()
    }

    /// An index that is inside mostly.
    fn index(&mut self, length: usize) -> u64 {
        match self.random.below(40) {
            0 => length as u64,
            1 => self.random.next_number(),
            2 => u64::from(self.random.next_number() as u32),
            _ => self.random.below(length.max(1)) as u64,
        }
    }
}

/// A plan of a kind and a policy that its generator picks.
pub fn plan(mut random: Random) -> Plan {
    let kind = random.below(KINDS as usize) as u32;
    let mut source = Source::new(random, kind);
    let mut plan = match source.random.below(100) {
        0..4 => outside_the_limits(&mut source),
        4..7 => at_a_limit(&mut source),
        _ => within_the_limits(&mut source),
    };
    plan.kind = kind;
    plan.policy = source.random.below(POLICIES as usize) as u32;
    if source.random.percent(3) && made(&plan) {
        code_nothing(&mut source, &mut plan);
    }
    plan
}

/// Whether a station of these parts can be made.
fn made(plan: &Plan) -> bool {
    Part::ALL.iter().all(|&part| {
        let length = part_length(plan, part);
        (1..=part.limit()).contains(&length)
    })
}

fn part_length(plan: &Plan, part: Part) -> usize {
    match part {
        Part::Program => plan.program.len(),
        Part::Memory => plan.memory.len(),
        Part::Stack => plan.stack.len(),
        Part::Log => plan.log.len(),
    }
}

fn within_the_limits(source: &mut Source) -> Plan {
    let memory = source.random.length(Part::Memory.limit());
    let memory = source.numbers(memory);
    let stack = source.random.length(Part::Stack.limit());
    let log = source.random.length(Part::Log.limit());
    let mut plan = Plan {
        program: programs::any(source, &memory),
        memory,
        stack: vec![Entry::default(); stack],
        log: vec![Number::default(); log],
        ..Plan::default()
    };
    if source.random.percent(20) {
        plan.stack = source.stack(stack);
        plan.log = source.numbers(log);
    }
    plan.calls = calls::any(source, &plan);
    plan
}

/// A plan with a part at its limit.
fn at_a_limit(source: &mut Source) -> Plan {
    let mut plan = within_the_limits(source);
    for part in Part::ALL {
        if source.random.percent(40) {
            resize(source, &mut plan, part, part.limit());
        }
    }
    plan.calls = calls::any(source, &plan);
    plan
}

/// A plan with one or more parts that are empty or too long.
fn outside_the_limits(source: &mut Source) -> Plan {
    let mut plan = within_the_limits(source);
    let certain = source.random.pick(&Part::ALL);
    for part in Part::ALL {
        if part == certain || source.random.percent(15) {
            let length = source.random.pick(&[0, part.limit() + 1]);
            resize(source, &mut plan, part, length);
        }
    }
    plan
}

fn resize(source: &mut Source, plan: &mut Plan, part: Part, length: usize) {
    match part {
        Part::Program => plan.program = programs::of_length(source, length),
        Part::Memory => plan.memory = source.numbers(length),
        Part::Stack => plan.stack = vec![Entry::default(); length],
        Part::Log => plan.log = vec![Number::default(); length],
    }
}

/// Puts in one number that codes nothing.
fn code_nothing(source: &mut Source, plan: &mut Plan) {
    let beyond = |source: &mut Source, first: u32| match source.random.below(3) {
        0 => first,
        1 => u32::MAX,
        _ => first + source.random.below(1000) as u32,
    };
    let Some(label) = source.kind.no_label(&mut source.random) else {
        return;
    };
    let operation = source.random.below(plan.program.len());
    let call = plan.calls.len().checked_sub(1);
    match (source.random.below(13), call) {
        (0, _) => plan.kind = beyond(source, KINDS),
        (1, _) => plan.policy = beyond(source, POLICIES),
        (2, _) => plan.other_replies = source.random.pick(&[1, 2]),
        (3, Some(_)) => plan.other_replies = -1,
        (4, _) => plan.program[operation] = code(beyond(source, 14)),
        (5, _) => plan.program[operation] = labelled_push(label),
        (6, _) => plan.program[operation] = no_call(source),
        (7, _) => source.random.pick_mut(&mut plan.memory).label = label,
        (8, _) => source.random.pick_mut(&mut plan.stack).label = label,
        (9, _) => source.random.pick_mut(&mut plan.stack).form = beyond(source, 3),
        (10, _) => source.random.pick_mut(&mut plan.log).label = label,
        (_, Some(_)) => *source.random.pick_mut(&mut plan.calls) = no_station_call(source, label),
        (_, None) => plan.memory[0].label = label,
    }
}

fn code(code: u32) -> Operation {
    Operation {
        code,
        ..Operation::default()
    }
}

fn labelled_push(label: u32) -> Operation {
    Operation {
        label,
        ..Operation::default()
    }
}

/// A call operation with too many numbers, or neither yes nor no.
fn no_call(source: &mut Source) -> Operation {
    let (value, due) = source
        .random
        .pick(&[(256, 0), (-1, 1), (0, 2), (3, u32::MAX)]);
    Operation {
        value,
        due,
        ..code(crate::plan::operation::CALL)
    }
}

/// A call on a station that codes nothing.
fn no_station_call(source: &mut Source, label: u32) -> Call {
    let codes = [call::ENTER, call::LOOK, call::NEXT_COMMAND];
    match source.random.below(4) {
        0 => Call {
            code: 5,
            ..Call::default()
        },
        1 => Call {
            code: call::START,
            lent: 2,
            ..Call::default()
        },
        2 => Call {
            code: call::GO,
            index: 1 << 32,
            ..Call::default()
        },
        _ => Call {
            code: source.random.pick(&codes),
            label,
            ..Call::default()
        },
    }
}

#[cfg(test)]
mod tests {
    use super::*;
    use crate::ours::Ours;
    use crate::plan::{Engine, end};

    #[test]
    fn the_same_seed_makes_the_same_plan() {
        for index in 0..50 {
            let make = || plan(Random::for_plan(1, index));
            assert_eq!(make(), make());
            let make = || comparison(Random::for_plan(1, index));
            assert_eq!(make(), make());
        }
    }

    #[test]
    fn plans_stay_within_their_fuel() {
        for index in 0..300 {
            let plan = plan(Random::for_plan(2, index));
            let fuel = |call: &Call| if call.code == call::GO { call.index } else { 0 };
            let all: u64 = plan.calls.iter().map(fuel).sum();
            let outcome = Ours.run(&plan);
            assert!(all <= calls::FUEL as u64 || outcome.end.code != end::RUN);
            assert!(outcome.steps() <= calls::FUEL as u64);
            assert!(plan.calls.len() <= 100);
        }
    }
}
