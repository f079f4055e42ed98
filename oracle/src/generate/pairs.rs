//! Random comparisons: a station and a variant that is alike to an observer, almost alike, or unrelated.

use super::{Source, calls, programs};
use crate::kinds::Kind;
use crate::plan::{Call, Comparison, KINDS, Number, Operation, POLICIES, Side, call, operation};
use crate::random::Random;
use crate::station::{Lengths, Part};

/// A comparison of a kind and a policy that its generator picks.
pub fn comparison(mut random: Random) -> Comparison {
    let kind = random.below(KINDS as usize) as u32;
    let mut source = Source::new(random, kind);
    let stack = source.random.pick(&[4, 12, 40, 64]);
    let log = source.random.pick(&[1, 3, 16, 64]);
    let level = match source.random.below(2) {
        0 => 0,
        _ => source.label(),
    };
    let first = side(&mut source, stack, log, level);
    let second = match source.random.below(10) {
        0..7 => alike(&mut source, &first, level),
        7..9 => {
            let mut second = alike(&mut source, &first, level);
            spoil(&mut source, &mut second);
            second
        }
        _ => side(&mut source, stack, log, level),
    };
    let mut comparison = Comparison {
        kind,
        policy: source.random.below(POLICIES as usize) as u32,
        level,
        stack,
        log,
        first,
        second,
    };
    if source.random.percent(4) {
        break_one(&mut source, &mut comparison);
    }
    comparison
}

fn side(source: &mut Source, stack: usize, log: usize, level: u32) -> Side {
    let memory = source.random.length(24);
    let mut memory = source.numbers(memory);
    let program = match secret(source, &mut memory, level) {
        Some(cell) if source.random.percent(40) => programs::telling(source, cell, memory.len()),
        _ => programs::any(source, &memory),
    };
    let own = Lengths {
        program: program.len(),
        memory: memory.len(),
        stack,
        log,
    };
    let mut calls = calls::whole_rounds(source, own);
    sprinkle(source, &mut calls, own);
    Side {
        program,
        memory,
        calls,
    }
}

/// Puts a number that is hidden from the level into a cell, if there is such a label; answers the cell.
fn secret(source: &mut Source, memory: &mut [Number], level: u32) -> Option<usize> {
    let label = source.any_label();
    let cell = source.random.below(memory.len());
    hidden(source.kind, label, level).then(|| {
        memory[cell] = Number {
            value: source.random.below(3) as i32,
            label,
        };
        cell
    })
}

/// Puts in calls that do not count.
fn sprinkle(source: &mut Source, calls: &mut Vec<Call>, own: Lengths) {
    for _ in 0..source.random.pick(&[0, 0, 0, 1, 2]) {
        let place = source.random.within(0..=calls.len());
        let call = calls::uncounted(source, own);
        calls.insert(place, call);
    }
}

/// The same to an observer at the level, with other hidden numbers, goes and looks.
fn alike(source: &mut Source, side: &Side, level: u32) -> Side {
    let mut other = side.clone();
    for operation in &mut other.program {
        if operation.code == operation::PUSH {
            hide(source, level, &mut operation.value, &mut operation.label);
        }
    }
    for cell in &mut other.memory {
        hide(source, level, &mut cell.value, &mut cell.label);
    }
    for call in &mut other.calls {
        if call.code == call::ENTER {
            hide(source, level, &mut call.value, &mut call.label);
        }
    }
    if source.random.percent(40) {
        let struck_out = |call: &Call| matches!(call.code, call::LOOK | call::NEXT_COMMAND);
        other.calls.retain(|call| !struck_out(call));
    }
    if source.random.percent(15) {
        let length = source.random.within(0..=other.calls.len());
        other.calls.truncate(length);
    }
    let own = Lengths {
        program: other.program.len(),
        memory: other.memory.len(),
        stack: 8,
        log: 8,
    };
    sprinkle(source, &mut other.calls, own);
    other
}

/// Changes a number that is hidden from the level to another hidden one, mostly.
fn hide(source: &mut Source, level: u32, value: &mut i32, label: &mut u32) {
    let kind = source.kind;
    if kind.flows(*label, level) || source.random.percent(30) {
        return;
    }
    *value = if source.random.percent(40) {
        0
    } else {
        source.value()
    };
    if source.random.percent(25) {
        let other = source.any_label();
        if hidden(kind, other, level) {
            *label = other;
        }
    }
}

fn hidden(kind: Kind, label: u32, level: u32) -> bool {
    !kind.flows(label, level)
}

/// Changes something that the observer may notice.
fn spoil(source: &mut Source, side: &mut Side) {
    let number = source.number();
    match source.random.below(8) {
        5.. => {
            let pushes = side.program.iter_mut();
            for push in pushes.filter(|operation| operation.code == operation::PUSH) {
                if source.random.percent(30) {
                    push.value = source.value();
                }
            }
        }
        0 => *source.random.pick_mut(&mut side.memory) = number,
        1 => {
            let place = source.random.below(side.program.len());
            side.program[place] = Operation {
                value: number.value,
                label: number.label,
                ..Operation::default()
            };
        }
        2 => side.memory.push(number),
        3 => side.program.push(Operation {
            code: operation::HALT,
            ..Operation::default()
        }),
        _ => {
            let call = Call {
                code: call::ENTER,
                value: number.value,
                label: number.label,
                ..Call::default()
            };
            let place = source.random.within(0..=side.calls.len());
            side.calls.insert(place, call);
        }
    }
}

/// Makes one part impossible, or puts in a number that codes nothing.
fn break_one(source: &mut Source, comparison: &mut Comparison) {
    let which = source.random.below(8);
    let side = if source.random.percent(50) {
        &mut comparison.first
    } else {
        &mut comparison.second
    };
    let zero = Number::default();
    match which {
        0 => side.program.clear(),
        1 => side.memory.clear(),
        2 => side.memory.resize(Part::Memory.limit() + 1, zero),
        3 => comparison.stack = source.random.pick(&[0, Part::Stack.limit() + 1]),
        4 => comparison.log = source.random.pick(&[0, Part::Log.limit() + 1]),
        5 => comparison.kind = KINDS,
        6 => side.program[0].code = 14,
        _ => {
            if let Some(label) = source.kind.no_label(&mut source.random) {
                comparison.level = label;
            }
        }
    }
}
