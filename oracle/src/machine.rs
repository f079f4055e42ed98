//! The stack machine: operations, stack entries, one step, and the loop that runs a round.

#![forbid(unsafe_code)]

use crate::labels::Label;
use crate::policy::{Name, Policy, Request, Verdict};

/// A labelled number.
#[derive(Clone, Copy, PartialEq, Eq, Debug)]
pub struct Number<L> {
    pub value: i32,
    pub label: L,
}

impl<L: Label> Number<L> {
    /// 0 that everybody may know.
    pub fn zero() -> Self {
        Self {
            value: 0,
            label: L::bottom(),
        }
    }
}

/// A frame: where a call returns to.
#[derive(Clone, Copy, PartialEq, Eq, Debug)]
pub struct Frame<L> {
    pub place: i64,
    /// Whether a result is due there.
    pub due: bool,
    pub label: L,
}

/// An entry of the stack.
#[derive(Clone, Copy, PartialEq, Eq, Debug)]
pub enum Entry<L> {
    Number(Number<L>),
    Frame(Frame<L>),
}

/// An operation of a program.
#[derive(Clone, Copy, PartialEq, Eq, Debug)]
pub enum Operation<L> {
    Push(Number<L>),
    Pop,
    Noop,
    Add,
    Sub,
    Less,
    Load,
    Store,
    Jump,
    Bnz(i32),
    Call { count: u8, due: bool },
    Return,
    Output,
    Halt,
}

impl<L> Operation<L> {
    /// What the policy knows it by; nothing for halt.
    #[inline]
    pub fn name(&self) -> Option<Name> {
        Some(match self {
            Self::Push(_) => Name::Push,
            Self::Pop => Name::Pop,
            Self::Noop => Name::Noop,
            Self::Add => Name::Add,
            Self::Sub => Name::Sub,
            Self::Less => Name::Less,
            Self::Load => Name::Load,
            Self::Store => Name::Store,
            Self::Jump => Name::Jump,
            Self::Bnz(_) => Name::Bnz,
            Self::Call { .. } => Name::Call,
            Self::Return => Name::Return,
            Self::Output => Name::Output,
            Self::Halt => return None,
        })
    }
}

/// Why a round was stopped.
#[derive(Clone, Copy, PartialEq, Eq, Debug)]
pub enum Stop {
    OutsideProgram = 21,
    TooFewNumbers = 22,
    StackFull = 23,
    OutsideMemory = 24,
    Forbidden = 25,
    NoFrame = 26,
    LogFull = 27,
    HaltAboveBottom = 28,
}

impl Stop {
    pub const ALL: [Self; 8] = [
        Self::OutsideProgram,
        Self::TooFewNumbers,
        Self::StackFull,
        Self::OutsideMemory,
        Self::Forbidden,
        Self::NoFrame,
        Self::LogFull,
        Self::HaltAboveBottom,
    ];

    /// The published number of the stop.
    pub fn number(self) -> u32 {
        self as u32
    }
}

/// What a round keeps while it runs.
#[derive(Clone, Copy, PartialEq, Eq, Debug)]
pub struct Round<L> {
    /// The program counter.
    pub place: i64,
    /// The label of the program counter.
    pub label: L,
    /// How many entries of the stack are in use.
    pub depth: usize,
}

impl<L: Label> Round<L> {
    pub fn start() -> Self {
        Self {
            place: 0,
            label: L::bottom(),
            depth: 0,
        }
    }
}

/// How a run came to its end.
#[derive(Clone, Copy, PartialEq, Eq, Debug)]
pub enum Ending {
    Finished,
    Stopped(Stop),
    OutOfFuel,
}

/// The four parts of a station.
#[derive(Debug)]
pub struct Parts<'a, L> {
    pub program: &'a [Operation<L>],
    pub memory: &'a mut [Number<L>],
    pub stack: &'a mut [Entry<L>],
    pub log: &'a mut [Number<L>],
}

impl<L> Parts<'_, L> {
    /// The same parts for a shorter while.
    pub fn reborrow(&mut self) -> Parts<'_, L> {
        Parts {
            program: self.program,
            memory: self.memory,
            stack: self.stack,
            log: self.log,
        }
    }
}

/// Watches a run. What is not overridden compiles away.
pub trait Watch {
    /// An operation was done, and so many entries of the stack are in use now.
    #[inline]
    fn done(&mut self, _name: Name, _depth: usize) {}

    /// The policy forbade an operation.
    #[inline]
    fn forbidden(&mut self, _name: Name) {}
}

/// Watches nothing.
#[derive(Clone, Copy, Default, Debug)]
pub struct Unwatched;

impl Watch for Unwatched {}

/// Runs a round on until it finishes, is stopped or finds no fuel; answers the steps that were done too.
pub fn run<L: Label, P: Policy<L>, W: Watch>(
    round: &mut Round<L>,
    commands: &mut usize,
    parts: Parts<'_, L>,
    policy: &mut P,
    fuel: u32,
    watch: &mut W,
) -> (u32, Ending) {
    let mut machine = Machine {
        parts,
        commands: *commands,
    };
    let (after, steps, ending) = machine.run(*round, policy, fuel, watch);
    *round = after;
    *commands = machine.commands;
    (steps, ending)
}

/// The parts that a round runs on, and how many commands there are. The round itself goes through the steps by value, so
/// that it can stay in registers.
struct Machine<'a, L> {
    parts: Parts<'a, L>,
    commands: usize,
}

impl<L: Label> Machine<'_, L> {
    #[inline]
    fn run<P: Policy<L>, W: Watch>(
        &mut self,
        mut round: Round<L>,
        policy: &mut P,
        fuel: u32,
        watch: &mut W,
    ) -> (Round<L>, u32, Ending) {
        let program = self.parts.program;
        let mut steps = 0;
        loop {
            let Some(operation) = at(program, round.place) else {
                return (round, steps, Ending::Stopped(Stop::OutsideProgram));
            };
            if let Operation::Halt = operation {
                return (round, steps, round.halt());
            }
            if steps == fuel {
                return (round, steps, Ending::OutOfFuel);
            }
            round = match self.step(round, operation, policy) {
                Ok(after) => after,
                Err(stop) => {
                    if let (Stop::Forbidden, Some(name)) = (stop, operation.name()) {
                        watch.forbidden(name);
                    }
                    return (round, steps, Ending::Stopped(stop));
                }
            };
            if let Some(name) = operation.name() {
                watch.done(name, round.depth);
            }
            steps += 1;
        }
    }

    /// Tries one operation. A stop leaves everything as it was.
    #[inline(always)]
    fn step<P: Policy<L>>(
        &mut self,
        round: Round<L>,
        operation: &Operation<L>,
        policy: &mut P,
    ) -> Result<Round<L>, Stop> {
        match *operation {
            Operation::Push(number) => self.push(round, number, policy),
            Operation::Pop => self.pop(round, policy),
            Operation::Noop => self.noop(round, policy),
            Operation::Add => self.binary(round, Name::Add, i32::wrapping_add, policy),
            Operation::Sub => self.binary(round, Name::Sub, i32::wrapping_sub, policy),
            Operation::Less => self.binary(round, Name::Less, |b, a| i32::from(b < a), policy),
            Operation::Load => self.load(round, policy),
            Operation::Store => self.store(round, policy),
            Operation::Jump => self.jump(round, policy),
            Operation::Bnz(distance) => self.bnz(round, distance, policy),
            Operation::Call { count, due } => self.call(round, usize::from(count), due, policy),
            Operation::Return => self.return_from_call(round, policy),
            Operation::Output => self.output(round, policy),
            // The loop handles it.
            Operation::Halt => Ok(round),
        }
    }

    #[inline(always)]
    fn push<P: Policy<L>>(
        &mut self,
        mut round: Round<L>,
        number: Number<L>,
        policy: &mut P,
    ) -> Result<Round<L>, Stop> {
        let Some(slot) = self.parts.stack.get_mut(round.depth) else {
            return Err(Stop::StackFull);
        };
        let verdict = round.ask_of_one(Name::Push, number.label, policy)?;
        *slot = Entry::Number(labelled(number.value, verdict));
        round.depth += 1;
        Ok(round.go_on(verdict))
    }

    #[inline(always)]
    fn pop<P: Policy<L>>(&mut self, mut round: Round<L>, policy: &mut P) -> Result<Round<L>, Stop> {
        let a = self.top(round.depth)?;
        let verdict = round.ask_of_one(Name::Pop, a.label, policy)?;
        round.depth -= 1;
        Ok(round.go_on(verdict))
    }

    #[inline(always)]
    fn noop<P: Policy<L>>(&mut self, round: Round<L>, policy: &mut P) -> Result<Round<L>, Stop> {
        let verdict = round.ask_of_one(Name::Noop, L::bottom(), policy)?;
        Ok(round.go_on(verdict))
    }

    /// Add, sub and less: the result of the number beneath and the top one.
    #[inline(always)]
    fn binary<P: Policy<L>>(
        &mut self,
        mut round: Round<L>,
        name: Name,
        work_out: impl Fn(i32, i32) -> i32,
        policy: &mut P,
    ) -> Result<Round<L>, Stop> {
        let in_use = &mut self.parts.stack[..round.depth];
        let [.., Entry::Number(b), Entry::Number(a)] = in_use else {
            return Err(Stop::TooFewNumbers);
        };
        let request = Request {
            a: a.label,
            b: b.label,
            ..Request::new(name, round.label)
        };
        let verdict = ask(&request, policy)?;
        *b = labelled(work_out(b.value, a.value), verdict);
        round.depth -= 1;
        Ok(round.go_on(verdict))
    }

    #[inline(always)]
    fn load<P: Policy<L>>(&mut self, round: Round<L>, policy: &mut P) -> Result<Round<L>, Stop> {
        let Some(Entry::Number(a)) = self.parts.stack[..round.depth].last_mut() else {
            return Err(Stop::TooFewNumbers);
        };
        let Some(cell) = at(self.parts.memory, a.value.into()) else {
            return Err(Stop::OutsideMemory);
        };
        let request = Request {
            a: a.label,
            b: cell.label,
            ..Request::new(Name::Load, round.label)
        };
        let verdict = ask(&request, policy)?;
        *a = labelled(cell.value, verdict);
        Ok(round.go_on(verdict))
    }

    #[inline(always)]
    fn store<P: Policy<L>>(
        &mut self,
        mut round: Round<L>,
        policy: &mut P,
    ) -> Result<Round<L>, Stop> {
        let in_use = &self.parts.stack[..round.depth];
        let [.., Entry::Number(b), Entry::Number(a)] = in_use else {
            return Err(Stop::TooFewNumbers);
        };
        let Some(cell) = at_mut(self.parts.memory, a.value.into()) else {
            return Err(Stop::OutsideMemory);
        };
        let request = Request {
            name: Name::Store,
            counter: round.label,
            a: a.label,
            b: b.label,
            c: cell.label,
        };
        let verdict = ask(&request, policy)?;
        *cell = labelled(b.value, verdict);
        round.depth -= 2;
        Ok(round.go_on(verdict))
    }

    #[inline(always)]
    fn jump<P: Policy<L>>(
        &mut self,
        mut round: Round<L>,
        policy: &mut P,
    ) -> Result<Round<L>, Stop> {
        let a = self.top(round.depth)?;
        let verdict = round.ask_of_one(Name::Jump, a.label, policy)?;
        round.depth -= 1;
        Ok(round.go_to(a.value.into(), verdict))
    }

    #[inline(always)]
    fn bnz<P: Policy<L>>(
        &mut self,
        mut round: Round<L>,
        distance: i32,
        policy: &mut P,
    ) -> Result<Round<L>, Stop> {
        let a = self.top(round.depth)?;
        let verdict = round.ask_of_one(Name::Bnz, a.label, policy)?;
        let distance = if a.value == 0 { 1 } else { distance.into() };
        round.depth -= 1;
        Ok(round.go_to(round.place + distance, verdict))
    }

    /// Puts the frame under the arguments, in whose place the target was on top.
    #[inline(always)]
    fn call<P: Policy<L>>(
        &mut self,
        round: Round<L>,
        count: usize,
        due: bool,
        policy: &mut P,
    ) -> Result<Round<L>, Stop> {
        let Some(beneath) = round.depth.checked_sub(count + 1) else {
            return Err(Stop::TooFewNumbers);
        };
        let taken = &mut self.parts.stack[beneath..round.depth];
        let Some((&Entry::Number(a), arguments)) = taken.split_last() else {
            return Err(Stop::TooFewNumbers);
        };
        if !arguments.iter().all(is_number) {
            return Err(Stop::TooFewNumbers);
        }
        let verdict = round.ask_of_one(Name::Call, a.label, policy)?;
        taken.copy_within(..count, 1);
        taken[0] = Entry::Frame(Frame {
            place: round.place + 1,
            due,
            label: verdict.result,
        });
        Ok(round.go_to(a.value.into(), verdict))
    }

    #[inline(always)]
    fn return_from_call<P: Policy<L>>(
        &mut self,
        mut round: Round<L>,
        policy: &mut P,
    ) -> Result<Round<L>, Stop> {
        let in_use = &mut self.parts.stack[..round.depth];
        let Some((position, frame)) = nearest_frame(in_use) else {
            return Err(Stop::NoFrame);
        };
        let result = match in_use.last() {
            Some(Entry::Number(result)) if frame.due => Some(*result),
            _ if frame.due => return Err(Stop::TooFewNumbers),
            _ => None,
        };
        let request = Request {
            a: frame.label,
            b: result.map_or(L::bottom(), |number| number.label),
            ..Request::new(Name::Return, round.label)
        };
        let verdict = ask(&request, policy)?;
        round.depth = position;
        if let Some(number) = result {
            in_use[position] = Entry::Number(labelled(number.value, verdict));
            round.depth += 1;
        }
        Ok(round.go_to(frame.place, verdict))
    }

    #[inline(always)]
    fn output<P: Policy<L>>(
        &mut self,
        mut round: Round<L>,
        policy: &mut P,
    ) -> Result<Round<L>, Stop> {
        let a = self.top(round.depth)?;
        let Some(command) = self.parts.log.get_mut(self.commands) else {
            return Err(Stop::LogFull);
        };
        let verdict = round.ask_of_one(Name::Output, a.label, policy)?;
        *command = labelled(a.value, verdict);
        self.commands += 1;
        round.depth -= 1;
        Ok(round.go_on(verdict))
    }

    /// The number on top of the stack.
    #[inline(always)]
    fn top(&self, depth: usize) -> Result<Number<L>, Stop> {
        match self.parts.stack[..depth].last() {
            Some(Entry::Number(number)) => Ok(*number),
            _ => Err(Stop::TooFewNumbers),
        }
    }
}

impl<L: Label> Round<L> {
    fn halt(&self) -> Ending {
        if self.label == L::bottom() {
            Ending::Finished
        } else {
            Ending::Stopped(Stop::HaltAboveBottom)
        }
    }

    /// Asks for an operation that uses one label at most.
    #[inline(always)]
    fn ask_of_one<P: Policy<L>>(
        &self,
        name: Name,
        a: L,
        policy: &mut P,
    ) -> Result<Verdict<L>, Stop> {
        let request = Request {
            a,
            ..Request::new(name, self.label)
        };
        ask(&request, policy)
    }

    /// To the next place.
    #[inline(always)]
    fn go_on(self, verdict: Verdict<L>) -> Self {
        self.go_to(self.place + 1, verdict)
    }

    #[inline(always)]
    fn go_to(self, place: i64, verdict: Verdict<L>) -> Self {
        Self {
            place,
            label: verdict.counter,
            ..self
        }
    }
}

#[inline(always)]
fn ask<L, P: Policy<L>>(request: &Request<L>, policy: &mut P) -> Result<Verdict<L>, Stop> {
    policy.ask(request).ok_or(Stop::Forbidden)
}

/// That number with the label of the verdict's result.
#[inline(always)]
fn labelled<L>(value: i32, verdict: Verdict<L>) -> Number<L> {
    Number {
        value,
        label: verdict.result,
    }
}

#[inline(always)]
fn is_number<L>(entry: &Entry<L>) -> bool {
    matches!(entry, Entry::Number(_))
}

/// The frame nearest to the top, and where it is.
#[inline]
fn nearest_frame<L: Copy>(in_use: &[Entry<L>]) -> Option<(usize, Frame<L>)> {
    let entries = in_use.iter().enumerate().rev();
    entries
        .into_iter()
        .find_map(|(position, entry)| match entry {
            Entry::Frame(frame) => Some((position, *frame)),
            Entry::Number(_) => None,
        })
}

/// The item at a place that may be outside.
#[inline(always)]
fn at<T>(items: &[T], place: i64) -> Option<&T> {
    items.get(usize::try_from(place).ok()?)
}

#[inline(always)]
fn at_mut<T>(items: &mut [T], place: i64) -> Option<&mut T> {
    items.get_mut(usize::try_from(place).ok()?)
}

#[cfg(test)]
mod tests {
    use super::*;
    use crate::labels::Level;
    use crate::policy::Direct;
    use Operation::{
        Add, Bnz, Call, Halt, Jump, Less, Load, Noop, Output, Pop, Push, Return, Store, Sub,
    };

    fn number(value: i32, label: u8) -> Number<Level> {
        Number {
            value,
            label: Level::new(label).unwrap(),
        }
    }

    fn push(value: i32, label: u8) -> Operation<Level> {
        Push(number(value, label))
    }

    /// What a run left.
    #[derive(Debug)]
    struct Left {
        steps: u32,
        ending: Ending,
        round: Round<Level>,
        memory: Vec<Number<Level>>,
        stack: Vec<Entry<Level>>,
        log: Vec<Number<Level>>,
    }

    impl Left {
        fn top(&self) -> Number<Level> {
            match self.stack.last() {
                Some(Entry::Number(number)) => *number,
                other => panic!("no number on top: {other:?}"),
            }
        }
    }

    /// Runs a program with four cells (the last one 4@1, the third 9@3), eight stack entries and two commands.
    fn run_with(program: &[Operation<Level>], fuel: u32) -> Left {
        let mut memory = vec![number(0, 0), number(0, 0), number(9, 3), number(4, 1)];
        let mut stack = vec![Entry::Number(number(77, 7)); 8];
        let mut log = vec![number(0, 0); 2];
        let mut round = Round::start();
        let mut commands = 0;
        let parts = Parts {
            program,
            memory: &mut memory,
            stack: &mut stack,
            log: &mut log,
        };
        let (steps, ending) = run(
            &mut round,
            &mut commands,
            parts,
            &mut Direct,
            fuel,
            &mut Unwatched,
        );
        stack.truncate(round.depth);
        log.truncate(commands);
        Left {
            steps,
            ending,
            round,
            memory,
            stack,
            log,
        }
    }

    fn run_all(program: &[Operation<Level>]) -> Left {
        run_with(program, 1000)
    }

    fn stop_of(program: &[Operation<Level>]) -> (Stop, i64) {
        let left = run_all(program);
        match left.ending {
            Ending::Stopped(stop) => (stop, left.round.place),
            other => panic!("{other:?}"),
        }
    }

    #[test]
    fn arithmetic_wraps_and_takes_the_number_beneath_first() {
        let on = |b, a, operation| {
            run_all(&[push(b, 1), push(a, 2), operation, Halt])
                .top()
                .value
        };
        assert_eq!(on(5, 3, Sub), 2);
        assert_eq!(on(i32::MAX, 1, Add), i32::MIN);
        assert_eq!(on(i32::MIN, 1, Sub), i32::MAX);
        assert_eq!(on(3, 5, Less), 1);
        assert_eq!(on(5, 5, Less), 0);
        assert_eq!(on(5, 3, Less), 0);
        let left = run_all(&[push(1, 1), push(2, 2), Add, Halt]);
        assert_eq!(left.stack, [Entry::Number(number(3, 2))]);
        assert_eq!(left.steps, 3);
    }

    #[test]
    fn load_and_store() {
        let left = run_all(&[push(2, 1), Load, push(3, 0), Store, Halt]);
        assert_eq!(left.ending, Ending::Finished);
        assert_eq!(left.memory[3], number(9, 3));
        assert_eq!(left.round.depth, 0);
    }

    #[test]
    fn a_call_puts_its_frame_under_the_arguments() {
        let program = [
            push(10, 0),
            push(20, 1),
            push(6, 0),
            Call {
                count: 2,
                due: true,
            },
            Output,
            Halt,
            Sub,
            Return,
        ];
        let left = run_with(&program, 4);
        let frame = Entry::Frame(Frame {
            place: 4,
            due: true,
            label: Level::bottom(),
        });
        let arguments = [number(10, 0), number(20, 1)].map(Entry::Number);
        assert_eq!(left.stack, [frame, arguments[0], arguments[1]]);
        assert_eq!(left.round.place, 6);
        let left = run_all(&program);
        assert_eq!(left.ending, Ending::Finished);
        assert_eq!(left.log, [number(-10, 1)]);
    }

    #[test]
    fn return_brings_the_counter_down_and_raises_the_result() {
        let program = [
            push(4, 2),
            Call {
                count: 0,
                due: true,
            },
            Noop,
            Halt,
            push(1, 0),
            push(2, 0),
            Return,
        ];
        let left = run_with(&program, 4);
        assert_eq!(left.round.label.number(), 2);
        let left = run_all(&program);
        assert_eq!(left.ending, Ending::Finished);
        assert_eq!(left.stack, [Entry::Number(number(2, 2))]);
    }

    #[test]
    fn a_return_without_a_result_removes_all_above_the_frame() {
        let program = [
            push(5, 0),
            push(4, 0),
            Call {
                count: 0,
                due: false,
            },
            Halt,
            push(1, 0),
            push(2, 0),
            Return,
        ];
        assert_eq!(run_all(&program).stack, [Entry::Number(number(5, 0))]);
    }

    #[test]
    fn every_stop_and_its_place() {
        let call = Call {
            count: 0,
            due: true,
        };
        let full = [push(0, 0); 9];
        let cases: [(&[Operation<Level>], Stop, i64); 14] = [
            (&[Noop, push(9, 0), Jump], Stop::OutsideProgram, 9),
            (&[Noop], Stop::OutsideProgram, 1),
            (&[push(1, 0), Bnz(-3)], Stop::OutsideProgram, -2),
            (&[push(1, 0), Add], Stop::TooFewNumbers, 1),
            (&[Pop], Stop::TooFewNumbers, 0),
            (&[push(3, 0), call, Halt, Pop], Stop::TooFewNumbers, 3),
            (&[push(3, 0), call, Halt, Return], Stop::TooFewNumbers, 3),
            (&full, Stop::StackFull, 8),
            (&[push(-1, 0), Load], Stop::OutsideMemory, 1),
            (&[push(4, 0), Load], Stop::OutsideMemory, 1),
            (&[push(0, 0), push(2, 0), Store, Return], Stop::NoFrame, 3),
            (
                &[push(0, 0), Output, push(0, 0), Output, push(0, 0), Output],
                Stop::LogFull,
                5,
            ),
            (&[push(1, 1), Bnz(1), Halt], Stop::HaltAboveBottom, 2),
            (
                &[push(1, 1), Bnz(1), push(8, 0), push(3, 2), Store],
                Stop::Forbidden,
                4,
            ),
        ];
        for (program, stop, place) in cases {
            assert_eq!(stop_of(program), (stop, place), "{program:?}");
        }
    }

    #[test]
    fn numbers_of_a_call_must_lie_above_the_frame() {
        let program = [
            push(1, 0),
            push(4, 0),
            Call {
                count: 1,
                due: false,
            },
            Halt,
            push(0, 0),
            Call {
                count: 2,
                due: false,
            },
        ];
        assert_eq!(stop_of(&program), (Stop::TooFewNumbers, 5));
    }

    #[test]
    fn halts_and_outside_places_come_before_the_lack_of_fuel() {
        assert_eq!(run_with(&[Halt], 0).ending, Ending::Finished);
        let left = run_with(&[Noop], 1);
        assert_eq!(left.ending, Ending::Stopped(Stop::OutsideProgram));
        assert_eq!(run_with(&[Pop], 0).ending, Ending::OutOfFuel);
        assert_eq!(run_with(&[Noop, Noop, Halt], 2).ending, Ending::Finished);
    }

    #[test]
    fn commands_take_the_label_of_the_counter() {
        let left = run_all(&[push(1, 3), Bnz(1), push(5, 1), Output, Halt]);
        assert_eq!(left.log, [number(5, 3)]);
    }
}
