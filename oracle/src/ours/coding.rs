//! Between the plain numbers of the boundary and the types of the reference engine.

use crate::labels::{Growers, Label, Level, Pair};
use crate::machine::{Entry, Frame, Number, Operation};
use crate::plan::{self, call, form, operation};
use crate::station::{CallName, Lengths};

/// A label with a number at the boundary.
pub trait Code: Label {
    fn decode(code: u32) -> Option<Self>;
    fn encode(self) -> u32;
}

/// A label whose number has sixteen bits at most, so that it may be a part of a pair.
pub trait Short: Code {}

impl Short for Level {}
impl Short for Growers {}

impl Code for Level {
    fn decode(code: u32) -> Option<Self> {
        Self::new(u8::try_from(code).ok()?)
    }

    fn encode(self) -> u32 {
        self.number().into()
    }
}

impl Code for Growers {
    fn decode(code: u32) -> Option<Self> {
        u16::try_from(code).ok().map(Self)
    }

    fn encode(self) -> u32 {
        self.0.into()
    }
}

impl<A: Short, B: Short> Code for Pair<A, B> {
    fn decode(code: u32) -> Option<Self> {
        Some(Self {
            left: A::decode(code >> 16)?,
            right: B::decode(code & 0xffff)?,
        })
    }

    fn encode(self) -> u32 {
        self.left.encode() << 16 | self.right.encode()
    }
}

/// A call and, if they are not the station's own, the lengths of the parts handed in.
#[derive(Clone, Copy, Debug)]
pub struct Call<L> {
    pub action: Action<L>,
    pub others: Option<Lengths>,
}

/// What a call is to do.
#[derive(Clone, Copy, Debug)]
pub enum Action<L> {
    Enter { cell: u64, number: Number<L> },
    Look { cell: u64, clearance: L },
    Start,
    Go { fuel: u32 },
    NextCommand { from: u64, clearance: L },
}

impl<L> Action<L> {
    pub fn name(&self) -> CallName {
        match self {
            Self::Enter { .. } => CallName::Enter,
            Self::Look { .. } => CallName::Look,
            Self::Start => CallName::Start,
            Self::Go { .. } => CallName::Go,
            Self::NextCommand { .. } => CallName::NextCommand,
        }
    }
}

/// Decodes all, or nothing if one of them codes nothing.
fn all<T, U>(items: &[T], decode: impl Fn(&T) -> Option<U>) -> Option<Vec<U>> {
    // Collecting would start with little room, since any item may end it.
    let mut all = Vec::with_capacity(items.len());
    for item in items {
        all.push(decode(item)?);
    }
    Some(all)
}

pub fn program<L: Code>(program: &[plan::Operation]) -> Option<Vec<Operation<L>>> {
    all(program, operation)
}

pub fn numbers<L: Code>(numbers: &[plan::Number]) -> Option<Vec<Number<L>>> {
    all(numbers, number)
}

pub fn stack<L: Code>(stack: &[plan::Entry]) -> Option<Vec<Entry<L>>> {
    all(stack, entry)
}

pub fn calls<L: Code>(calls: &[plan::Call]) -> Option<Vec<Call<L>>> {
    all(calls, call)
}

fn operation<L: Code>(coded: &plan::Operation) -> Option<Operation<L>> {
    Some(match coded.code {
        operation::PUSH => Operation::Push(Number {
            value: coded.value,
            label: L::decode(coded.label)?,
        }),
        operation::POP => Operation::Pop,
        operation::NOOP => Operation::Noop,
        operation::ADD => Operation::Add,
        operation::SUB => Operation::Sub,
        operation::LESS => Operation::Less,
        operation::LOAD => Operation::Load,
        operation::STORE => Operation::Store,
        operation::JUMP => Operation::Jump,
        operation::BNZ => Operation::Bnz(coded.value),
        operation::CALL => Operation::Call {
            count: u8::try_from(coded.value).ok()?,
            due: yes_or_no(coded.due)?,
        },
        operation::RETURN => Operation::Return,
        operation::OUTPUT => Operation::Output,
        operation::HALT => Operation::Halt,
        _ => return None,
    })
}

fn number<L: Code>(coded: &plan::Number) -> Option<Number<L>> {
    Some(Number {
        value: coded.value,
        label: L::decode(coded.label)?,
    })
}

fn entry<L: Code>(coded: &plan::Entry) -> Option<Entry<L>> {
    let label = L::decode(coded.label)?;
    let frame = |due| {
        Entry::Frame(Frame {
            place: coded.number,
            due,
            label,
        })
    };
    Some(match coded.form {
        form::NUMBER => Entry::Number(Number {
            value: i32::try_from(coded.number).ok()?,
            label,
        }),
        form::FRAME => frame(false),
        form::FRAME_WITH_RESULT => frame(true),
        _ => return None,
    })
}

fn call<L: Code>(coded: &plan::Call) -> Option<Call<L>> {
    let action = match coded.code {
        call::ENTER => Action::Enter {
            cell: coded.index,
            number: Number {
                value: coded.value,
                label: L::decode(coded.label)?,
            },
        },
        call::LOOK => Action::Look {
            cell: coded.index,
            clearance: L::decode(coded.label)?,
        },
        call::START => Action::Start,
        call::GO => Action::Go {
            fuel: u32::try_from(coded.index).ok()?,
        },
        call::NEXT_COMMAND => Action::NextCommand {
            from: coded.index,
            clearance: L::decode(coded.label)?,
        },
        _ => return None,
    };
    let others = yes_or_no(coded.lent)?.then_some(Lengths {
        program: coded.program as usize,
        memory: coded.memory as usize,
        stack: coded.stack as usize,
        log: coded.log as usize,
    });
    Some(Call { action, others })
}

fn yes_or_no(code: u32) -> Option<bool> {
    match code {
        0 => Some(false),
        1 => Some(true),
        _ => None,
    }
}

pub fn write_numbers<L: Code>(numbers: &[Number<L>], coded: &mut [plan::Number]) {
    for (number, coded) in numbers.iter().zip(coded) {
        *coded = plan::Number {
            value: number.value,
            label: number.label.encode(),
        };
    }
}

pub fn write_stack<L: Code>(stack: &[Entry<L>], coded: &mut [plan::Entry]) {
    for (entry, coded) in stack.iter().zip(coded) {
        *coded = match entry {
            Entry::Number(number) => plan::Entry {
                number: number.value.into(),
                label: number.label.encode(),
                form: form::NUMBER,
            },
            Entry::Frame(frame) => plan::Entry {
                number: frame.place,
                label: frame.label.encode(),
                form: if frame.due {
                    form::FRAME_WITH_RESULT
                } else {
                    form::FRAME
                },
            },
        };
    }
}
