//! Plans on the reference engine, in plain numbers.

use super::*;
use crate::plan::{Call, Entry, Number, Operation, call, form, operation};

fn op(code: u32) -> Operation {
    Operation {
        code,
        ..Operation::default()
    }
}

fn push(value: i32, label: u32) -> Operation {
    Operation {
        value,
        label,
        ..op(operation::PUSH)
    }
}

fn make_call(code: u32, index: u64) -> Call {
    Call {
        code,
        index,
        ..Call::default()
    }
}

fn plan(program: Vec<Operation>, calls: Vec<Call>) -> Plan {
    Plan {
        program,
        memory: vec![Number::default(); 4],
        stack: vec![Entry::default(); 4],
        log: vec![Number::default(); 4],
        calls,
        ..Plan::default()
    }
}

#[test]
fn a_running_station_is_told_in_full() {
    let calls = vec![make_call(call::START, 0), make_call(call::GO, 2)];
    let plan = plan(vec![push(1, 3), push(4, 2), op(operation::ADD)], calls);
    for kind in [0, 1, 2, 3, 4, 5] {
        for policy in 0..crate::plan::POLICIES {
            let plan = Plan {
                kind,
                policy,
                ..plan.clone()
            };
            let outcome = Ours.run(&plan);
            let gone = outcome.replies[1];
            assert_eq!((gone.code, gone.steps), (reply::GONE, 2));
            assert_eq!(outcome.end.state, state::RUNNING);
            assert_eq!((outcome.end.place, outcome.end.depth), (2, 2));
            let entry = |number, label| Entry {
                number,
                label,
                form: form::NUMBER,
            };
            assert_eq!(outcome.stack[..2], [entry(1, 3), entry(4, 2)]);
        }
    }
}

#[test]
fn others_parts() {
    let lent = |code, memory| Call {
        lent: 1,
        program: 1,
        memory,
        stack: 4,
        log: 4,
        ..make_call(code, 0)
    };
    let calls = vec![
        lent(call::ENTER, 3),
        lent(call::ENTER, 4),
        lent(call::GO, 4),
        lent(call::START, 9),
        make_call(call::START, 0),
        lent(call::GO, 5),
        lent(call::GO, 4),
        lent(call::LOOK, 5),
    ];
    let outcome = Ours.run(&plan(vec![op(operation::HALT)], calls));
    let codes: Vec<_> = outcome
        .replies
        .iter()
        .map(|reply| (reply.code, reply.refusal, reply.part, reply.state))
        .collect();
    assert_eq!(
        codes,
        [
            (reply::REFUSED, 2, 2, 0),
            (reply::NOT_MADE, 0, 0, 0),
            (reply::NOT_TAKEN, 0, 0, state::IDLE),
            (reply::NOT_MADE, 0, 0, 0),
            (reply::STARTED, 0, 0, 0),
            (reply::REFUSED, 2, 2, 0),
            (reply::NOT_MADE, 0, 0, 0),
            (reply::NOT_TAKEN, 0, 0, state::RUNNING),
        ]
    );
}

#[test]
fn what_codes_nothing_changes_nothing() {
    let good = plan(
        vec![op(operation::HALT)],
        vec![make_call(call::START, 0), make_call(call::GO, 1)],
    );
    let mut bad = vec![good.clone(); 7];
    bad[0].kind = 6;
    bad[1].policy = 4;
    bad[2].program[0].code = 14;
    bad[3].memory[3].label = 8;
    bad[4].calls[1].index = 1 << 32;
    bad[5].other_replies = 1;
    bad[6].stack[0].form = 3;
    for plan in bad {
        let outcome = Ours.run(&plan);
        assert_eq!(outcome.end.code, end::CODES_NOTHING);
        let before = Outcome::before(&plan);
        assert_eq!(
            outcome,
            Outcome {
                end: outcome.end,
                ..before
            }
        );
    }
    assert_eq!(Ours.run(&good).end.code, end::RUN);
}

#[test]
fn making_outside_the_limits_is_refused() {
    let outcome = Ours.run(&plan(Vec::new(), Vec::new()));
    let end = outcome.end;
    assert_eq!((end.code, end.refusal, end.part), (end::REFUSED, 1, 1));
}

/// A comparison of two stations that push a number, output it and halt, after an enter.
fn comparison(level: u32, pushed: [Number; 2], entered: [Number; 2]) -> Comparison {
    let side = |which: usize| Side {
        program: vec![
            push(pushed[which].value, pushed[which].label),
            op(operation::OUTPUT),
            op(operation::HALT),
        ],
        memory: vec![Number::default(); 2 + which],
        calls: vec![
            Call {
                value: entered[which].value,
                label: entered[which].label,
                ..make_call(call::ENTER, 1)
            },
            make_call(call::START, 0),
            make_call(call::GO, 9),
        ],
    };
    Comparison {
        level,
        stack: 4,
        log: 4,
        first: side(0),
        second: side(1),
        ..Comparison::default()
    }
}

fn number(value: i32, label: u32) -> Number {
    Number { value, label }
}

#[test]
fn comparisons() {
    let mut hidden = comparison(
        1,
        [number(1, 2), number(2, 3)],
        [number(5, 2), number(6, 2)],
    );
    let found = Ours.compare(&hidden);
    assert_eq!((found.programs, found.memories, found.calls), (-1, 2, -1));
    assert_eq!(found.commands, -1);
    // cell 2 is refused with 3 on one side
    assert_eq!((found.looks, found.cell), (looks::DIFFERENT, 2));
    hidden.second.memory.pop();
    let found = Ours.compare(&hidden);
    assert!(found.alike() && !found.seen());
    assert_eq!((found.looks, found.cell), (looks::SAME, -1));
    hidden.level = 2;
    let found = Ours.compare(&hidden);
    assert_eq!((found.programs, found.calls, found.commands), (0, 0, -1));
    assert_eq!((found.looks, found.cell), (looks::DIFFERENT, 1));
    hidden.second.calls.truncate(1);
    assert_eq!(Ours.compare(&hidden).looks, looks::NOT_DUE);
}
