//! Plans in plain numbers: what a station is made of and the calls on it, as either engine is handed them.

#![forbid(unsafe_code)]

/// A labelled number.
#[derive(Clone, Copy, PartialEq, Eq, Default, Debug)]
#[repr(C)]
pub struct Number {
    pub value: i32,
    pub label: u32,
}

/// An operation.
#[derive(Clone, Copy, PartialEq, Eq, Default, Debug)]
#[repr(C)]
pub struct Operation {
    pub code: u32,
    pub value: i32,
    pub label: u32,
    pub due: u32,
}

/// The codes of operations.
pub mod operation {
    pub const PUSH: u32 = 0;
    pub const POP: u32 = 1;
    pub const NOOP: u32 = 2;
    pub const ADD: u32 = 3;
    pub const SUB: u32 = 4;
    pub const LESS: u32 = 5;
    pub const LOAD: u32 = 6;
    pub const STORE: u32 = 7;
    pub const JUMP: u32 = 8;
    pub const BNZ: u32 = 9;
    pub const CALL: u32 = 10;
    pub const RETURN: u32 = 11;
    pub const OUTPUT: u32 = 12;
    pub const HALT: u32 = 13;
}

/// An entry of the stack.
#[derive(Clone, Copy, PartialEq, Eq, Default, Debug)]
#[repr(C)]
pub struct Entry {
    pub number: i64,
    pub label: u32,
    pub form: u32,
}

/// The forms of stack entries.
pub mod form {
    pub const NUMBER: u32 = 0;
    pub const FRAME: u32 = 1;
    pub const FRAME_WITH_RESULT: u32 = 2;
}

/// A call.
#[derive(Clone, Copy, PartialEq, Eq, Default, Debug)]
#[repr(C)]
pub struct Call {
    pub index: u64,
    pub code: u32,
    pub value: i32,
    pub label: u32,
    /// 1 if others' parts of the four lengths are handed in.
    pub lent: u32,
    pub program: u32,
    pub memory: u32,
    pub stack: u32,
    pub log: u32,
}

/// The codes of calls.
pub mod call {
    pub const ENTER: u32 = 0;
    pub const LOOK: u32 = 1;
    pub const START: u32 = 2;
    pub const GO: u32 = 3;
    pub const NEXT_COMMAND: u32 = 4;
}

/// A reply to a call.
#[derive(Clone, Copy, PartialEq, Eq, Default, Debug)]
#[repr(C)]
pub struct Reply {
    /// The number shown, or the place of a stop.
    pub number: i64,
    /// The place of a command that was found.
    pub place: u64,
    pub code: u32,
    pub label: u32,
    pub steps: u32,
    pub state: u32,
    pub refusal: u32,
    pub part: u32,
}

/// The codes of replies.
pub mod reply {
    pub const ENTERED: u32 = 1;
    pub const SHOWN: u32 = 2;
    pub const STARTED: u32 = 3;
    pub const GONE: u32 = 4;
    pub const FOUND: u32 = 5;
    pub const NONE_LEFT: u32 = 6;
    pub const REFUSED: u32 = 7;
    pub const NOT_TAKEN: u32 = 8;
    pub const NOT_MADE: u32 = 9;
}

/// The codes of states; a shut station has the number of its stop.
pub mod state {
    pub const IDLE: u32 = 0;
    pub const RUNNING: u32 = 1;
}

/// How the run of a plan ended.
#[derive(Clone, Copy, PartialEq, Eq, Default, Debug)]
#[repr(C)]
pub struct End {
    pub place: i64,
    pub depth: u64,
    pub commands: u64,
    pub code: u32,
    pub refusal: u32,
    pub part: u32,
    pub state: u32,
    pub label: u32,
}

/// The codes of ends.
pub mod end {
    pub const RUN: u32 = 0;
    pub const REFUSED: u32 = 1;
    pub const CODES_NOTHING: u32 = 2;
}

/// What the comparison of two stations found.
#[derive(Clone, Copy, PartialEq, Eq, Default, Debug)]
#[repr(C)]
pub struct Report {
    pub programs: i64,
    pub memories: i64,
    pub calls: i64,
    pub commands: i64,
    pub cell: i64,
    pub looks: u32,
    pub code: u32,
    pub refusal: u32,
    pub part: u32,
}

/// The codes of reports.
pub mod report {
    pub const COMPARED: u32 = 0;
    pub const FIRST_REFUSED: u32 = 1;
    pub const SECOND_REFUSED: u32 = 2;
    pub const CODES_NOTHING: u32 = 3;
}

/// What a report says of the looks.
pub mod looks {
    pub const NOT_DUE: u32 = 0;
    pub const SAME: u32 = 1;
    pub const DIFFERENT: u32 = 2;
}

impl Report {
    /// Whether programs, memories and calls are alike, so that the observer must see no difference.
    pub fn alike(&self) -> bool {
        self.code == report::COMPARED && (self.programs, self.memories, self.calls) == (-1, -1, -1)
    }

    /// Whether the observer sees a difference in commands or cells.
    pub fn seen(&self) -> bool {
        self.commands != -1 || self.looks == looks::DIFFERENT
    }
}

/// How many kinds of labels and how many policies there are.
pub const KINDS: u32 = 6;
pub const POLICIES: u32 = 4;

/// A station to be made and the calls to be made on it.
#[derive(Clone, PartialEq, Eq, Default, Debug)]
pub struct Plan {
    pub kind: u32,
    pub policy: u32,
    pub program: Vec<Operation>,
    pub memory: Vec<Number>,
    pub stack: Vec<Entry>,
    pub log: Vec<Number>,
    pub calls: Vec<Call>,
    /// How many replies the engine is given room for, other than the number of calls by so much.
    pub other_replies: i32,
}

impl Plan {
    /// How many replies the engine is given room for.
    pub fn room_for_replies(&self) -> usize {
        let calls = self.calls.len();
        calls.saturating_add_signed(self.other_replies as isize)
    }
}

/// What the run of a plan leaves.
#[derive(Clone, PartialEq, Eq, Default, Debug)]
pub struct Outcome {
    pub memory: Vec<Number>,
    pub stack: Vec<Entry>,
    pub log: Vec<Number>,
    pub replies: Vec<Reply>,
    pub end: End,
}

impl Outcome {
    /// Everything as it is before the run.
    pub fn before(plan: &Plan) -> Self {
        Self {
            memory: plan.memory.clone(),
            stack: plan.stack.clone(),
            log: plan.log.clone(),
            replies: vec![Reply::default(); plan.room_for_replies()],
            end: End::default(),
        }
    }

    /// The steps that all goes did together.
    pub fn steps(&self) -> u64 {
        self.replies
            .iter()
            .map(|reply| u64::from(reply.steps))
            .sum()
    }
}

/// One of two stations that are compared.
#[derive(Clone, PartialEq, Eq, Default, Debug)]
pub struct Side {
    pub program: Vec<Operation>,
    pub memory: Vec<Number>,
    pub calls: Vec<Call>,
}

/// Two stations to be compared as an observer at a level sees them.
#[derive(Clone, PartialEq, Eq, Default, Debug)]
pub struct Comparison {
    pub kind: u32,
    pub policy: u32,
    pub level: u32,
    pub stack: usize,
    pub log: usize,
    pub first: Side,
    pub second: Side,
}

/// An engine that runs plans and compares stations.
pub trait Engine {
    /// Runs a plan on what it finds in the outcome, which is as `Outcome::before` makes it.
    fn run_on(&mut self, plan: &Plan, outcome: &mut Outcome);

    fn compare(&mut self, comparison: &Comparison) -> Report;

    fn run(&mut self, plan: &Plan) -> Outcome {
        let mut outcome = Outcome::before(plan);
        self.run_on(plan, &mut outcome);
        outcome
    }
}
