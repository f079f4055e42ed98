//! The programs that are measured.

use operation::{ADD, HALT, JUMP, LESS, LOAD, NOOP, OUTPUT, POP, RETURN, STORE, SUB};
use oracle::plan::{Call, Entry, Number, Operation, Plan, call, operation};

/// A program, and how it is run.
pub struct Program {
    pub name: &'static str,
    steps: Vec<Step>,
    log: usize,
    run: Run,
}

/// How a program is run.
#[derive(Clone, Copy)]
enum Run {
    /// It goes on until its fuel is spent.
    Endless,
    /// It is stopped after about so many steps, long before its fuel is spent.
    Stopped(u32),
}

/// An operation. A hidden number has a label above the bottom.
#[derive(Clone, Copy)]
enum Step {
    Plain(u32),
    Push(i32),
    Hidden(i32),
    Branch(i32),
    Call { count: i32, due: u32 },
}

use Step::{Branch, Hidden, Plain, Push};

/// A label above the bottom, for each kind.
pub fn hidden(kind: u32) -> u32 {
    match kind {
        0 => 3,
        1 => 0x0005,
        2 => 3 << 16 | 2,
        3 => 3 << 16 | 0x0005,
        4 => 0x0005 << 16 | 3,
        _ => 0x0005 << 16 | 0x0010,
    }
}

impl Program {
    /// A plan, and how often it is to be run so that there are about so many steps together.
    pub fn plan(&self, kind: u32, policy: u32, steps: u32) -> (Plan, usize) {
        let start = Call {
            code: call::START,
            ..Call::default()
        };
        let go = Call {
            code: call::GO,
            index: steps.into(),
            ..Call::default()
        };
        let times = match self.run {
            Run::Endless => 1,
            Run::Stopped(taken) => steps / taken,
        };
        let low = Number::default();
        let plan = Plan {
            kind,
            policy,
            program: self.steps.iter().map(|step| step.code(kind)).collect(),
            memory: vec![low; 16],
            stack: vec![Entry::default(); 16],
            log: vec![low; self.log],
            calls: vec![start, go],
            other_replies: 0,
        };
        (plan, times.max(1) as usize)
    }
}

impl Step {
    fn code(self, kind: u32) -> Operation {
        let plain = Operation::default();
        match self {
            Plain(code) => Operation { code, ..plain },
            Push(value) => Operation {
                code: operation::PUSH,
                value,
                ..plain
            },
            Hidden(value) => Operation {
                code: operation::PUSH,
                value,
                label: hidden(kind),
                ..plain
            },
            Branch(value) => Operation {
                code: operation::BNZ,
                value,
                ..plain
            },
            Step::Call { count, due } => Operation {
                code: operation::CALL,
                value: count,
                due,
                ..plain
            },
        }
    }
}

pub fn all() -> Vec<Program> {
    vec![counting(), calling(), storing(), branching(), stopping()]
}

/// Counts in a cell, for ever.
pub fn counting() -> Program {
    Program {
        name: "counting",
        steps: vec![
            Push(0),
            Plain(LOAD),
            Push(1),
            Plain(ADD),
            Push(0),
            Plain(STORE),
            Push(1),
            Branch(-7),
            Plain(HALT),
        ],
        log: 16,
        run: Run::Endless,
    }
}

/// Calls a function of two hidden numbers that returns a result, for ever.
fn calling() -> Program {
    Program {
        name: "calls",
        steps: vec![
            Hidden(20),
            Hidden(22),
            Push(7),
            Step::Call { count: 2, due: 1 },
            Plain(POP),
            Push(0),
            Plain(JUMP),
            Plain(ADD),
            Plain(RETURN),
        ],
        log: 16,
        run: Run::Endless,
    }
}

/// Puts hidden numbers into cells, loads them and gives them out, until the log is full.
fn storing() -> Program {
    let mut steps = Vec::new();
    for cell in 0..8 {
        steps.extend([Hidden(cell * 3), Push(cell), Plain(STORE)]);
        steps.extend([Push(cell), Plain(LOAD), Plain(OUTPUT)]);
    }
    steps.extend([Push(0), Plain(JUMP)]);
    let log = 4096;
    Program {
        name: "stores and outputs",
        run: Run::Stopped(log / 8 * steps.len() as u32),
        steps,
        log: log as usize,
    }
}

/// Reckons with hidden numbers and branches on what comes of it, for ever.
fn branching() -> Program {
    Program {
        name: "branches",
        steps: vec![
            Push(5),
            Hidden(3),
            Plain(SUB),
            Push(9),
            Plain(LESS),
            Branch(1),
            Plain(NOOP),
            Push(1),
            Branch(-8),
            Plain(HALT),
        ],
        log: 16,
        run: Run::Endless,
    }
}

/// Counts a cell down from 1,000, and is stopped then for want of a number.
fn stopping() -> Program {
    Program {
        name: "stops early",
        steps: vec![
            Push(1_000),
            Push(0),
            Plain(STORE),
            Push(0),
            Plain(LOAD),
            Push(1),
            Plain(SUB),
            Push(0),
            Plain(STORE),
            Push(0),
            Plain(LOAD),
            Branch(-8),
            Plain(POP),
            Plain(HALT),
        ],
        log: 16,
        run: Run::Stopped(9_003),
    }
}

/// A round that is stopped at its fifth step.
pub fn shortest() -> Program {
    Program {
        name: "shortest",
        steps: vec![
            Push(1),
            Push(2),
            Plain(ADD),
            Plain(POP),
            Plain(POP),
            Plain(HALT),
        ],
        log: 16,
        run: Run::Stopped(4),
    }
}
