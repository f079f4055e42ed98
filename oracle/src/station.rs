//! Stations: what they are made of, the calls that they take, and what they answer.

#![forbid(unsafe_code)]

use crate::labels::Label;
use crate::machine::{self, Ending, Entry, Number, Operation, Parts, Round, Stop, Watch};
use crate::policy::Policy;

/// One of the four parts of a station.
#[derive(Clone, Copy, PartialEq, Eq, Debug)]
pub enum Part {
    Program = 1,
    Memory = 2,
    Stack = 3,
    Log = 4,
}

impl Part {
    pub const ALL: [Self; 4] = [Self::Program, Self::Memory, Self::Stack, Self::Log];

    /// How long this part may be at most; the least is 1.
    pub const fn limit(self) -> usize {
        match self {
            Self::Program | Self::Log => 4096,
            Self::Memory | Self::Stack => 1024,
        }
    }

    /// The part's number at the boundary.
    pub fn number(self) -> u32 {
        self as u32
    }

    pub fn name(self) -> &'static str {
        match self {
            Self::Program => "program",
            Self::Memory => "memory",
            Self::Stack => "stack",
            Self::Log => "log",
        }
    }
}

/// The lengths of the four parts.
#[derive(Clone, Copy, PartialEq, Eq, Debug)]
pub struct Lengths {
    pub program: usize,
    pub memory: usize,
    pub stack: usize,
    pub log: usize,
}

impl Lengths {
    pub fn of(self, part: Part) -> usize {
        match part {
            Part::Program => self.program,
            Part::Memory => self.memory,
            Part::Stack => self.stack,
            Part::Log => self.log,
        }
    }
}

impl<L> Parts<'_, L> {
    pub fn lengths(&self) -> Lengths {
        Lengths {
            program: self.program.len(),
            memory: self.memory.len(),
            stack: self.stack.len(),
            log: self.log.len(),
        }
    }
}

/// Why a call was refused. A refused call changes nothing.
#[derive(Clone, Copy, PartialEq, Eq, Debug)]
pub enum Refusal {
    OutsideLimits(Part),
    OtherLength(Part),
    OutsideMemory,
    AboveClearance,
}

impl Refusal {
    /// The published number of the refusal.
    pub fn number(self) -> u32 {
        match self {
            Self::OutsideLimits(_) => 1,
            Self::OtherLength(_) => 2,
            Self::OutsideMemory => 3,
            Self::AboveClearance => 4,
        }
    }

    /// The part that it names, if it names one.
    pub fn part(self) -> Option<Part> {
        match self {
            Self::OutsideLimits(part) | Self::OtherLength(part) => Some(part),
            Self::OutsideMemory | Self::AboveClearance => None,
        }
    }
}

/// Why a call was not made.
#[derive(Clone, Copy, PartialEq, Eq, Debug)]
pub enum Denial {
    /// The station's state does not take this call.
    NotTaken,
    Refused(Refusal),
}

impl From<Refusal> for Denial {
    fn from(refusal: Refusal) -> Self {
        Self::Refused(refusal)
    }
}

/// The calls on a made station.
#[derive(Clone, Copy, PartialEq, Eq, Debug)]
pub enum CallName {
    Enter,
    Look,
    Start,
    Go,
    NextCommand,
}

impl CallName {
    pub const ALL: [Self; 5] = [
        Self::Enter,
        Self::Look,
        Self::Start,
        Self::Go,
        Self::NextCommand,
    ];

    /// The parts that the call is handed.
    pub fn parts(self) -> &'static [Part] {
        match self {
            Self::Enter | Self::Look => &[Part::Memory],
            Self::Start => &[],
            Self::Go => &Part::ALL,
            Self::NextCommand => &[Part::Log],
        }
    }
}

/// The state of a station.
#[derive(Clone, Copy, PartialEq, Eq, Debug)]
pub enum State<L> {
    Idle,
    Running(Round<L>),
    Shut { stop: Stop, place: i64 },
}

/// What a go answers: the steps that were done, and how it ended.
#[derive(Clone, Copy, PartialEq, Eq, Debug)]
pub struct Gone {
    pub steps: u32,
    pub ending: Ending,
}

/// A station. Its four parts are lent to it call by call.
#[derive(Clone, Debug)]
pub struct Station<L> {
    lengths: Lengths,
    commands: usize,
    state: State<L>,
}

impl<L: Label> Station<L> {
    /// Makes an idle station without commands for parts of these lengths.
    pub fn make(lengths: Lengths) -> Result<Self, Refusal> {
        let outside = |part: &Part| !(1..=part.limit()).contains(&lengths.of(*part));
        match Part::ALL.into_iter().find(outside) {
            Some(part) => Err(Refusal::OutsideLimits(part)),
            None => Ok(Self {
                lengths,
                commands: 0,
                state: State::Idle,
            }),
        }
    }

    pub fn state(&self) -> State<L> {
        self.state
    }

    pub fn lengths(&self) -> Lengths {
        self.lengths
    }

    /// How many commands there are in the log.
    pub fn commands(&self) -> usize {
        self.commands
    }

    /// Whether the state takes this call.
    pub fn takes(&self, call: CallName) -> bool {
        match call {
            CallName::Enter | CallName::Look | CallName::Start => self.state == State::Idle,
            CallName::Go => matches!(self.state, State::Running(_)),
            CallName::NextCommand => true,
        }
    }

    /// Puts a number into a cell, whatever its label was.
    pub fn enter(
        &mut self,
        memory: &mut [Number<L>],
        cell: u64,
        number: Number<L>,
    ) -> Result<(), Denial> {
        self.require(CallName::Enter)?;
        self.require_length(Part::Memory, memory.len())?;
        let cell = usize::try_from(cell)
            .ok()
            .and_then(|cell| memory.get_mut(cell))
            .ok_or(Refusal::OutsideMemory)?;
        *cell = number;
        Ok(())
    }

    /// Answers what a cell holds, if its label may flow to the clearance.
    pub fn look(&self, memory: &[Number<L>], cell: u64, clearance: L) -> Result<Number<L>, Denial> {
        self.require(CallName::Look)?;
        self.require_length(Part::Memory, memory.len())?;
        let number = usize::try_from(cell)
            .ok()
            .and_then(|cell| memory.get(cell))
            .ok_or(Refusal::OutsideMemory)?;
        if number.label.flows_to(clearance) {
            Ok(*number)
        } else {
            Err(Refusal::AboveClearance.into())
        }
    }

    /// Begins a round.
    pub fn start(&mut self) -> Result<(), Denial> {
        self.require(CallName::Start)?;
        self.state = State::Running(Round::start());
        Ok(())
    }

    /// Runs the round on with so much fuel.
    pub fn go<P: Policy<L>, W: Watch>(
        &mut self,
        parts: Parts<'_, L>,
        policy: &mut P,
        fuel: u32,
        watch: &mut W,
    ) -> Result<Gone, Denial> {
        let State::Running(mut round) = self.state else {
            return Err(Denial::NotTaken);
        };
        let lengths = parts.lengths();
        for part in Part::ALL {
            self.require_length(part, lengths.of(part))?;
        }
        let (steps, ending) =
            machine::run(&mut round, &mut self.commands, parts, policy, fuel, watch);
        self.state = match ending {
            Ending::Finished => State::Idle,
            Ending::OutOfFuel => State::Running(round),
            Ending::Stopped(stop) => State::Shut {
                stop,
                place: round.place,
            },
        };
        Ok(Gone { steps, ending })
    }

    /// The first place from the given one on whose command may flow to the clearance.
    pub fn next_command(
        &self,
        log: &[Number<L>],
        from: u64,
        clearance: L,
    ) -> Result<Option<usize>, Denial> {
        self.require_length(Part::Log, log.len())?;
        let Ok(from) = usize::try_from(from) else {
            return Ok(None);
        };
        let later = log[..self.commands].iter().enumerate().skip(from);
        let mut visible = later.filter(|(_, command)| command.label.flows_to(clearance));
        Ok(visible.next().map(|(place, _)| place))
    }

    fn require(&self, call: CallName) -> Result<(), Denial> {
        if self.takes(call) {
            Ok(())
        } else {
            Err(Denial::NotTaken)
        }
    }

    fn require_length(&self, part: Part, length: usize) -> Result<(), Refusal> {
        if length == self.lengths.of(part) {
            Ok(())
        } else {
            Err(Refusal::OtherLength(part))
        }
    }
}

/// The four parts, owned.
#[derive(Clone, PartialEq, Eq, Debug)]
pub struct OwnedParts<L> {
    pub program: Vec<Operation<L>>,
    pub memory: Vec<Number<L>>,
    pub stack: Vec<Entry<L>>,
    pub log: Vec<Number<L>>,
}

impl<L: Label> OwnedParts<L> {
    /// Parts of these lengths: a program that halts, and zeros.
    pub fn blank(lengths: Lengths) -> Self {
        Self {
            program: vec![Operation::Halt; lengths.program],
            memory: vec![Number::zero(); lengths.memory],
            stack: vec![Entry::Number(Number::zero()); lengths.stack],
            log: vec![Number::zero(); lengths.log],
        }
    }

    /// Lends all of them.
    pub fn lend(&mut self) -> Parts<'_, L> {
        Parts {
            program: &self.program,
            memory: &mut self.memory,
            stack: &mut self.stack,
            log: &mut self.log,
        }
    }
}

#[cfg(test)]
mod tests {
    use super::*;
    use crate::labels::Level;
    use crate::machine::Unwatched;
    use crate::policy::Direct;

    const LENGTHS: Lengths = Lengths {
        program: 2,
        memory: 16,
        stack: 4,
        log: 2,
    };

    fn level(number: u8) -> Level {
        Level::new(number).unwrap()
    }

    fn number(value: i32, label: u8) -> Number<Level> {
        Number {
            value,
            label: level(label),
        }
    }

    fn made() -> (Station<Level>, OwnedParts<Level>) {
        let station = Station::make(LENGTHS).unwrap();
        (station, OwnedParts::blank(LENGTHS))
    }

    fn go(station: &mut Station<Level>, parts: &mut OwnedParts<Level>, fuel: u32) -> Gone {
        let gone = station.go(parts.lend(), &mut Direct, fuel, &mut Unwatched);
        gone.unwrap()
    }

    #[test]
    fn limits_name_the_first_part() {
        let make = |program, memory, stack, log| {
            Station::<Level>::make(Lengths {
                program,
                memory,
                stack,
                log,
            })
            .err()
        };
        assert_eq!(make(4096, 1024, 1024, 4096), None);
        assert_eq!(make(1, 1, 1, 1), None);
        for (lengths, part) in [
            ((0, 0, 0, 0), Part::Program),
            ((4097, 1, 1, 0), Part::Program),
            ((1, 0, 1025, 1), Part::Memory),
            ((1, 1025, 1, 1), Part::Memory),
            ((1, 1, 1025, 4097), Part::Stack),
            ((1, 1, 1, 4097), Part::Log),
        ] {
            let refusal = make(lengths.0, lengths.1, lengths.2, lengths.3);
            assert_eq!(refusal, Some(Refusal::OutsideLimits(part)));
        }
    }

    #[test]
    fn refusals_in_order() {
        let (mut station, mut parts) = made();
        let refused = |refusal| Err(Denial::Refused(refusal));
        let short = &mut parts.memory[..15];
        assert_eq!(
            station.enter(short, 16, number(1, 1)),
            refused(Refusal::OtherLength(Part::Memory))
        );
        assert_eq!(
            station.enter(&mut parts.memory, 16, number(1, 1)),
            refused(Refusal::OutsideMemory)
        );
        assert_eq!(station.enter(&mut parts.memory, 15, number(9, 3)), Ok(()));
        let look = |cell, clearance| {
            station
                .look(&parts.memory, cell, level(clearance))
                .map(Some)
        };
        assert_eq!(look(15, 3), Ok(Some(number(9, 3))));
        assert_eq!(look(15, 2), Err(Denial::Refused(Refusal::AboveClearance)));
        assert_eq!(
            look(u64::MAX, 7),
            Err(Denial::Refused(Refusal::OutsideMemory))
        );
    }

    #[test]
    fn states_take_their_calls() {
        let (mut station, mut parts) = made();
        parts.program = vec![Operation::Push(number(1, 2)), Operation::Output];
        let denied = station.go(parts.lend(), &mut Direct, 1, &mut Unwatched);
        assert_eq!(denied, Err(Denial::NotTaken));
        assert_eq!(station.start(), Ok(()));
        assert_eq!(station.start(), Err(Denial::NotTaken));
        let entered = station.enter(&mut parts.memory, 99, number(1, 1));
        assert_eq!(entered, Err(Denial::NotTaken));
        let looked = station.look(&parts.memory[..1], 0, level(7));
        assert_eq!(looked, Err(Denial::NotTaken));
        let gone = go(&mut station, &mut parts, 1);
        assert_eq!((gone.steps, gone.ending), (1, Ending::OutOfFuel));
        let gone = go(&mut station, &mut parts, 5);
        assert_eq!(
            (gone.steps, gone.ending),
            (1, Ending::Stopped(Stop::OutsideProgram))
        );
        let shut = State::Shut {
            stop: Stop::OutsideProgram,
            place: 2,
        };
        assert_eq!(station.state(), shut);
        assert_eq!(station.start(), Err(Denial::NotTaken));
        assert_eq!(station.next_command(&parts.log, 0, level(2)), Ok(Some(0)));
        assert_eq!(station.next_command(&parts.log, 0, level(1)), Ok(None));
        assert_eq!(station.next_command(&parts.log, 1, level(7)), Ok(None));
        assert_eq!(
            station.next_command(&parts.log[..1], 0, level(2)),
            Err(Denial::Refused(Refusal::OtherLength(Part::Log)))
        );
    }

    #[test]
    fn a_refused_go_leaves_the_station_running() {
        let (mut station, mut parts) = made();
        station.start().unwrap();
        let mut others = OwnedParts::blank(Lengths {
            stack: 5,
            log: 1,
            ..LENGTHS
        });
        let refused = station.go(others.lend(), &mut Direct, 9, &mut Unwatched);
        assert_eq!(
            refused,
            Err(Denial::Refused(Refusal::OtherLength(Part::Stack)))
        );
        let gone = go(&mut station, &mut parts, 0);
        assert_eq!((gone.steps, gone.ending), (0, Ending::Finished));
        assert_eq!(station.state(), State::Idle);
    }

    #[test]
    fn the_log_goes_on_from_round_to_round() {
        let (mut station, mut parts) = made();
        parts.program = vec![Operation::Push(number(1, 2)), Operation::Output];
        let lengths = Lengths {
            program: 3,
            ..LENGTHS
        };
        parts.program.push(Operation::Halt);
        station.clone_from(&Station::make(lengths).unwrap());
        for round in 1..=2 {
            station.start().unwrap();
            assert_eq!(go(&mut station, &mut parts, 9).ending, Ending::Finished);
            assert_eq!(station.commands(), round);
        }
        station.start().unwrap();
        let gone = go(&mut station, &mut parts, 9);
        assert_eq!(gone.ending, Ending::Stopped(Stop::LogFull));
        assert_eq!(station.commands(), 2);
    }
}
