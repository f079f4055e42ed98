//! Random lists of calls.

use super::Source;
use crate::plan::{Call, Plan, call};
use crate::station::Lengths;

/// How many steps all goes of a plan may do together at most.
pub const FUEL: usize = 20_000;

/// Makes lists of calls for a station of these lengths.
struct Caller<'a> {
    source: &'a mut Source,
    own: Lengths,
    calls: Vec<Call>,
    fuel: usize,
}

/// Any list of calls for a plan.
pub fn any(source: &mut Source, plan: &Plan) -> Vec<Call> {
    let own = Lengths {
        program: plan.program.len(),
        memory: plan.memory.len(),
        stack: plan.stack.len(),
        log: plan.log.len(),
    };
    let mut caller = Caller {
        source,
        own,
        calls: Vec::new(),
        fuel: FUEL,
    };
    caller.list();
    caller.calls
}

/// Rounds that have fuel enough to finish, with enters before and looks after them.
pub fn whole_rounds(source: &mut Source, own: Lengths) -> Vec<Call> {
    let mut caller = Caller {
        source,
        own,
        calls: Vec::new(),
        fuel: FUEL,
    };
    for _ in 0..caller.source.random.within(1..=3) {
        caller.enters();
        caller.start();
        caller.go(3000);
    }
    if caller.source.random.percent(30) {
        caller.enters();
    }
    caller.calls
}

/// A call that does not count when lists of calls are compared: a look, a question, or one that is refused with 2.
pub fn uncounted(source: &mut Source, own: Lengths) -> Call {
    let mut caller = Caller {
        source,
        own,
        calls: Vec::new(),
        fuel: 100,
    };
    match caller.source.random.below(4) {
        0 => caller.look(),
        1 => caller.next_command(),
        2 => caller.lend_wrong(),
        _ => caller.go(20),
    }
    caller.calls[0]
}

impl Caller<'_> {
    fn list(&mut self) {
        match self.source.random.below(20) {
            0 => {}
            1..3 => self.noise(12),
            _ => self.rounds(),
        }
        if self.source.random.percent(10) {
            self.sweep();
        }
    }

    fn rounds(&mut self) {
        let rounds = self.source.random.pick(&[1, 1, 1, 2, 2, 3, 4]);
        for _ in 0..rounds {
            self.noise(1);
            self.enters();
            self.start();
            if self.source.random.percent(40) {
                self.noise(2);
            }
            self.goes();
            self.noise(3);
            if self.calls.len() > 30 {
                break;
            }
        }
    }

    fn enters(&mut self) {
        for _ in 0..self.source.random.pick(&[0, 0, 0, 1, 1, 2, 3]) {
            self.enter();
        }
    }

    fn goes(&mut self) {
        match self.source.random.below(10) {
            0..6 => self.go(3000),
            6..9 => {
                for _ in 0..self.source.random.within(1..=8) {
                    let fuel = self.source.random.pick(&[0, 1, 2, 3, 10, 60]);
                    self.go(fuel);
                    if self.source.random.percent(20) {
                        self.noise(1);
                    }
                }
                self.go(1000);
            }
            _ => self.go(FUEL),
        }
    }

    /// Up to so many calls of any sort.
    fn noise(&mut self, most: usize) {
        for _ in 0..self.source.random.within(0..=most) {
            match self.source.random.below(16) {
                0..2 => self.enter(),
                2..5 => self.look(),
                5..7 => self.start(),
                7..9 => self.go(30),
                9..12 => self.next_command(),
                12..15 => self.lend_wrong(),
                _ => self.lend_right(),
            }
        }
    }

    fn call(&mut self, code: u32, index: u64) -> Call {
        let call = Call {
            code,
            index,
            ..Call::default()
        };
        match code {
            call::ENTER => Call {
                value: self.source.value(),
                label: self.source.label(),
                ..call
            },
            call::LOOK | call::NEXT_COMMAND => Call {
                label: self.clearance(),
                ..call
            },
            _ => call,
        }
    }

    fn clearance(&mut self) -> u32 {
        match self.source.random.below(4) {
            0 => self.source.any_label(),
            1 => self.source.kind.top(),
            _ => self.source.label(),
        }
    }

    fn add(&mut self, code: u32, index: u64) {
        let call = self.call(code, index);
        self.calls.push(call);
    }

    fn enter(&mut self) {
        let cell = self.source.index(self.own.memory);
        self.add(call::ENTER, cell);
    }

    fn look(&mut self) {
        let cell = self.source.index(self.own.memory);
        self.add(call::LOOK, cell);
    }

    fn start(&mut self) {
        self.add(call::START, 0);
    }

    fn go(&mut self, fuel: usize) {
        let fuel = fuel.min(self.fuel);
        self.fuel -= fuel;
        self.add(call::GO, fuel as u64);
    }

    fn next_command(&mut self) {
        let from = self.source.index(self.own.log.min(6));
        self.add(call::NEXT_COMMAND, from);
    }

    /// Looks at the first cells and questions for the next command from the first places, at many clearances.
    fn sweep(&mut self) {
        let mut clearances = self.source.palette.clone();
        clearances.extend([self.source.kind.top(), self.source.any_label()]);
        let code = self.source.random.pick(&[call::LOOK, call::NEXT_COMMAND]);
        for index in 0..4 {
            for &label in &clearances {
                self.calls.push(Call {
                    code,
                    index,
                    label,
                    ..Call::default()
                });
            }
        }
    }

    /// A call with others' parts of wrong lengths, one or several.
    fn lend_wrong(&mut self) {
        let codes = [
            call::ENTER,
            call::LOOK,
            call::GO,
            call::GO,
            call::GO,
            call::NEXT_COMMAND,
        ];
        let code = self.source.random.pick(&codes);
        let mut lengths = [
            self.own.program,
            self.own.memory,
            self.own.stack,
            self.own.log,
        ];
        let certain = match code {
            call::GO => self.source.random.below(4),
            call::NEXT_COMMAND => 3,
            _ => 1,
        };
        for (part, length) in lengths.iter_mut().enumerate() {
            if part == certain || self.source.random.percent(20) {
                *length = self.wrong(*length);
            }
        }
        self.lend(code, lengths);
    }

    fn wrong(&mut self, length: usize) -> usize {
        let other = match self.source.random.below(4) {
            0 => length - 1,
            1 => length + 1,
            2 => 0,
            _ => self.source.random.below(1200),
        };
        if other == length { length + 1 } else { other }
    }

    /// A call with others' parts that are as long as the station's own, or none of whose lengths matter.
    fn lend_right(&mut self) {
        let mut lengths = [
            self.own.program,
            self.own.memory,
            self.own.stack,
            self.own.log,
        ];
        let code = self.source.random.below(5) as u32;
        match code {
            call::ENTER | call::LOOK => lengths[3] += 1,
            call::NEXT_COMMAND => lengths[0] = 0,
            _ => {}
        }
        self.lend(code, lengths);
    }

    fn lend(&mut self, code: u32, lengths: [usize; 4]) {
        let index = match code {
            call::START => 0,
            _ => self.source.index(self.own.memory) & 0xff,
        };
        let index = index.min(self.fuel as u64);
        if code == call::GO {
            self.fuel -= index as usize;
        }
        let [program, memory, stack, log] = lengths.map(|length| length as u32);
        let call = self.call(code, index);
        self.calls.push(Call {
            lent: 1,
            program,
            memory,
            stack,
            log,
            ..call
        });
    }
}
