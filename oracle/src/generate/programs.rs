//! Random programs.

use super::Source;
use crate::plan::{Number, Operation, operation};
use crate::station::Part;

/// A program of any style.
pub fn any(source: &mut Source, memory: &[Number]) -> Vec<Operation> {
    match source.random.below(100) {
        0..12 => {
            let length = source.random.within(1..=60);
            of_length(source, length)
        }
        12..14 => {
            let length = source.random.within(100..=700);
            of_length(source, length)
        }
        14..74 => grown(source, memory),
        74..86 => {
            let program = grown(source, memory);
            mutated(source, program)
        }
        86..92 => template(source),
        _ => {
            let program = template(source);
            mutated(source, program)
        }
    }
}

/// A wholly random program of this length.
pub fn of_length(source: &mut Source, length: usize) -> Vec<Operation> {
    (0..length)
        .map(|_| random_operation(source, length))
        .collect()
}

fn plain(code: u32) -> Operation {
    Operation {
        code,
        ..Operation::default()
    }
}

fn push(value: i32, label: u32) -> Operation {
    Operation {
        value,
        label,
        ..plain(operation::PUSH)
    }
}

fn bnz(distance: i32) -> Operation {
    Operation {
        value: distance,
        ..plain(operation::BNZ)
    }
}

fn call(count: i32, due: bool) -> Operation {
    Operation {
        value: count,
        due: due.into(),
        ..plain(operation::CALL)
    }
}

/// Any operation; pushes are more frequent, so that the others find numbers.
fn random_operation(source: &mut Source, length: usize) -> Operation {
    if source.random.percent(45) {
        let number = source.number();
        return push(number.value, number.label);
    }
    match source.random.below(14) as u32 {
        operation::PUSH => push(source.random.below(length) as i32, 0),
        operation::BNZ => bnz(source.random.within(0..=8) as i32 - 3),
        operation::CALL => {
            let count = source.random.pick(&[0, 0, 0, 1, 1, 2, 3, 255]);
            call(count, source.random.percent(50))
        }
        code => plain(code),
    }
}

/// Changes a few operations of a program.
fn mutated(source: &mut Source, mut program: Vec<Operation>) -> Vec<Operation> {
    for _ in 0..source.random.within(1..=3) {
        let length = program.len();
        let place = source.random.below(length);
        let operation = random_operation(source, length);
        match source.random.below(5) {
            0 if length < Part::Program.limit() => program.insert(place, operation),
            1 if length > 1 => {
                program.remove(place);
            }
            2 => program[place].value = source.value(),
            3 if program[place].code == operation::PUSH => program[place].label = source.label(),
            _ => program[place] = operation,
        }
    }
    program
}

/// A short program for something that is rare otherwise.
fn template(source: &mut Source) -> Vec<Operation> {
    use operation::{ADD, HALT, JUMP, LOAD, NOOP, OUTPUT, POP, RETURN, STORE, SUB};
    let secret = source.label();
    let value = source.value();
    let halt = plain(HALT);
    match source.random.below(14) {
        // a tell by a call under a hidden branch
        0 => vec![
            push(0, secret),
            plain(LOAD),
            push(6, 0),
            call(1, true),
            plain(OUTPUT),
            halt,
            bnz(3),
            push(1, 0),
            plain(RETURN),
            push(value, 0),
            plain(RETURN),
        ],
        // endless output
        1 => vec![push(value, secret), plain(OUTPUT), push(0, 0), plain(JUMP)],
        // endless recursion
        2 => vec![push(value, secret), push(0, 0), call(1, false)],
        // an endless push
        3 => vec![push(value, secret), push(0, 0), plain(JUMP)],
        // addresses outside
        4 => vec![push(-1, secret), plain(LOAD), halt],
        5 => vec![push(value, 0), push(i32::MAX, secret), plain(STORE), halt],
        // no frame
        6 => vec![push(value, secret), plain(RETURN), halt],
        // places outside
        7 => vec![push(value, secret), plain(JUMP), halt],
        8 => vec![push(1, secret), bnz(value), halt],
        // a halt under a branch
        9 => vec![push(value, secret), bnz(1), halt],
        // a store under a branch
        10 => vec![
            push(value, secret),
            bnz(1),
            push(8, 0),
            push(0, 0),
            plain(STORE),
            halt,
        ],
        // a result that is missing, and one that lies above the frame
        11 => vec![
            push(4, 0),
            call(0, true),
            plain(POP),
            halt,
            push(value, secret),
            plain(POP),
            plain(RETURN),
        ],
        // too few numbers above a frame
        12 => vec![
            push(value, secret),
            push(4, 0),
            call(0, false),
            halt,
            plain(
                source
                    .random
                    .pick(&[ADD, SUB, POP, OUTPUT, STORE, LOAD, JUMP]),
            ),
            plain(RETURN),
        ],
        // a call with many numbers
        _ => {
            let count = source.random.pick(&[3, 17, 60, 254, 255]);
            let mut program: Vec<_> = (0..count).map(|_| push(value, secret)).collect();
            program.extend([
                push(count + 3, 0),
                call(count, true),
                halt,
                plain(ADD),
                plain(NOOP),
                plain(RETURN),
            ]);
            program
        }
    }
}

/// A program that calls functions which would tell what a cell holds, if the policy had a hole.
pub fn telling(source: &mut Source, secret: usize, cells: usize) -> Vec<Operation> {
    use operation::{HALT, OUTPUT};
    let tells: Vec<_> = (0..source.random.within(1..=3))
        .map(|_| tell(source, secret as i32, cells))
        .collect();
    let (mut main, mut targets) = (Vec::new(), Vec::new());
    for (due, _) in &tells {
        targets.push(main.len());
        main.extend([push(0, 0), call(0, *due)]);
        if *due {
            main.push(plain(OUTPUT));
        }
    }
    main.push(plain(HALT));
    for ((_, body), target) in tells.into_iter().zip(targets) {
        let base = main.len() as i32;
        main[target].value = base;
        main.extend(body.into_iter().map(|operation| moved(operation, base)));
    }
    main
}

/// Marks a number as a place in a function till it is known where the function begins.
const PLACE: u32 = 1;

fn place(place: i32) -> Operation {
    Operation {
        due: PLACE,
        ..push(place, 0)
    }
}

fn moved(operation: Operation, base: i32) -> Operation {
    if operation.code == operation::PUSH && operation.due == PLACE {
        push(operation.value + base, 0)
    } else {
        operation
    }
}

/// A function that uses a cell, and whether it gives a result.
fn tell(source: &mut Source, secret: i32, cells: usize) -> (bool, Vec<Operation>) {
    use operation::{ADD, JUMP, LOAD, OUTPUT, RETURN, STORE};
    let (one, other) = (source.number(), source.number());
    let (one, other) = (push(one.value, one.label), push(other.value, other.label));
    let cell = push(source.random.below(cells) as i32, 0);
    let load = [push(secret, 0), plain(LOAD)];
    let rest = match source.random.below(7) {
        0 => vec![bnz(4), one, cell, plain(STORE)],
        1 => {
            let rest = [bnz(3), one, plain(RETURN), other, plain(RETURN)];
            return (true, [&load[..], &rest].concat());
        }
        2 => vec![bnz(4), one, place(7), plain(JUMP), other, plain(OUTPUT)],
        3 => vec![cell, plain(STORE)],
        4 => vec![one, cell, plain(STORE), plain(OUTPUT)],
        // a store to a hidden address
        5 => {
            let rest = [plain(STORE), plain(RETURN)];
            return (false, [&[one], &load[..], &rest].concat());
        }
        // a jump to a hidden place
        _ => vec![place(5), plain(ADD), plain(JUMP), one, plain(OUTPUT)],
    };
    (false, [&load[..], &rest, &[plain(RETURN)]].concat())
}

/// A function of a program.
#[derive(Clone, Copy)]
struct Function {
    arguments: usize,
    due: bool,
}

/// Grows programs that run on sensibly.
struct Grower<'a> {
    source: &'a mut Source,
    memory: &'a [Number],
    program: Vec<Operation>,
    functions: Vec<Function>,
    /// The places where a function's place is pushed.
    targets: Vec<(usize, usize)>,
    /// Statements that may be grown still.
    budget: usize,
}

/// Where a statement stands.
#[derive(Clone, Copy)]
struct Scope {
    /// Numbers above the nearest frame.
    height: usize,
    /// The label of the program counter, about.
    counter: u32,
    depth: usize,
    /// The first function that may be called.
    callable: usize,
    /// Whether branches on all labels are sensible.
    hidden: bool,
}

fn grown(source: &mut Source, memory: &[Number]) -> Vec<Operation> {
    let budget = match source.random.below(100) {
        0..30 => source.random.within(1..=4),
        30..93 => source.random.within(4..=14),
        93..99 => source.random.within(20..=80),
        _ => source.random.within(100..=500),
    };
    let functions = match source.random.below(10) {
        0..4 => 0,
        4..9 => source.random.within(1..=2),
        _ => source.random.within(3..=6),
    };
    let functions: Vec<_> = (0..functions)
        .map(|_| Function {
            arguments: source.random.pick(&[0, 0, 1, 1, 2, 3]),
            due: source.random.percent(60),
        })
        .collect();
    let mut grower = Grower {
        source,
        memory,
        program: Vec::new(),
        functions,
        targets: Vec::new(),
        budget,
    };
    grower.whole();
    let mut program = grower.program;
    program.truncate(Part::Program.limit());
    program
}

impl Grower<'_> {
    fn whole(&mut self) {
        let hidden = self.source.random.percent(25);
        let mut scope = Scope {
            height: 0,
            counter: 0,
            depth: 0,
            callable: 0,
            hidden,
        };
        let statements = self.budget.div_ceil(1 + self.functions.len());
        for _ in 0..statements {
            self.statement(&mut scope);
        }
        for index in 0..self.functions.len() {
            if self.source.random.percent(60) {
                self.call_to(index, &mut scope);
                if self.functions[index].due && self.source.random.percent(70) {
                    self.take(operation::OUTPUT, &mut scope);
                }
            }
        }
        self.program.push(plain(operation::HALT));
        let mut places = Vec::new();
        for index in 0..self.functions.len() {
            places.push(self.program.len() as i32);
            self.function(index, statements);
        }
        for &(place, function) in &self.targets {
            self.program[place].value = places[function];
        }
    }

    fn function(&mut self, index: usize, statements: usize) {
        let function = self.functions[index];
        let recursive = self.source.random.percent(8);
        let mut scope = Scope {
            height: function.arguments,
            counter: self.source.label(),
            depth: 1,
            callable: if recursive { index } else { index + 1 },
            hidden: true,
        };
        let statements = self.source.random.within(0..=statements.min(6));
        for _ in 0..statements {
            self.statement(&mut scope);
        }
        if function.due && self.source.random.percent(35) {
            self.choice(&mut scope);
        }
        if function.due && scope.height == 0 && !self.source.random.percent(3) {
            self.push_any(&mut scope);
        }
        self.program.push(plain(operation::RETURN));
    }

    fn statement(&mut self, scope: &mut Scope) {
        if self.budget == 0 {
            return;
        }
        self.budget -= 1;
        match self.source.random.below(100) {
            0..14 => self.push_any(scope),
            14..25 => {
                self.load(scope);
            }
            25..39 => self.store(scope),
            39..53 => self.binary(scope),
            53..63 => self.take(operation::OUTPUT, scope),
            63..67 => self.take(operation::POP, scope),
            67..70 => self.program.push(plain(operation::NOOP)),
            70..77 => self.branch(scope),
            77..81 => self.choice(scope),
            81..86 => self.counting_loop(scope),
            86..89 => self.jump(scope),
            _ => self.call(scope),
        }
    }

    fn push(&mut self, value: i32, label: u32, scope: &mut Scope) {
        self.program.push(push(value, label));
        scope.height += 1;
    }

    fn push_any(&mut self, scope: &mut Scope) {
        let number = self.source.number();
        self.push(number.value, number.label, scope);
    }

    /// Sees to it that so many numbers lie there, mostly.
    fn at_least(&mut self, count: usize, scope: &mut Scope) {
        if self.source.random.percent(1) {
            return;
        }
        while scope.height < count {
            self.push_any(scope);
        }
    }

    /// The address of a cell, outside now and then.
    fn address(&mut self) -> usize {
        if self.source.random.percent(1) {
            return self.memory.len();
        }
        self.source.random.below(self.memory.len().min(40))
    }

    /// A cell that may be stored to under the program counter's label, if one is found; any cell now and then.
    fn storable(&mut self, counter: u32) -> usize {
        if self.source.random.percent(15) {
            return self.address();
        }
        let kind = self.source.kind;
        for _ in 0..12 {
            let address = self.address();
            let cell = self.memory.get(address);
            if cell.is_some_and(|cell| kind.flows(counter, cell.label)) {
                return address;
            }
        }
        self.address()
    }

    fn address_label(&mut self) -> u32 {
        if self.source.random.percent(5) {
            self.source.label()
        } else {
            0
        }
    }

    /// Loads a cell, and answers its label, about.
    fn load(&mut self, scope: &mut Scope) -> u32 {
        let address = self.address();
        self.load_from(address, scope)
    }

    /// Loads a cell whose label is above bottom, if one is found.
    fn load_secret(&mut self, scope: &mut Scope) -> u32 {
        let mut address = self.address();
        for _ in 0..6 {
            if self.memory.get(address).is_some_and(|cell| cell.label != 0) {
                break;
            }
            address = self.address();
        }
        self.load_from(address, scope)
    }

    fn load_from(&mut self, address: usize, scope: &mut Scope) -> u32 {
        let label = self.address_label();
        self.push(address as i32, label, scope);
        self.program.push(plain(operation::LOAD));
        let cell = self.memory.get(address).map_or(0, |cell| cell.label);
        self.source.kind.join(cell, label)
    }

    fn store(&mut self, scope: &mut Scope) {
        self.at_least(1, scope);
        let address = self.storable(scope.counter);
        let label = self.address_label();
        self.push(address as i32, label, scope);
        self.done(operation::STORE, 2, scope);
    }

    fn binary(&mut self, scope: &mut Scope) {
        use operation::{ADD, LESS, SUB};
        self.at_least(2, scope);
        let code = self.source.random.pick(&[ADD, SUB, LESS]);
        self.done(code, 1, scope);
    }

    fn take(&mut self, code: u32, scope: &mut Scope) {
        self.at_least(1, scope);
        self.done(code, 1, scope);
    }

    /// An operation that takes so many numbers away.
    fn done(&mut self, code: u32, takes: usize, scope: &mut Scope) {
        self.program.push(plain(code));
        scope.height = scope.height.saturating_sub(takes);
    }

    /// A number to branch on; answers its label, about.
    fn condition(&mut self, scope: &mut Scope) -> u32 {
        if scope.hidden && self.source.random.percent(60) {
            return self.load_secret(scope);
        }
        let label = if scope.hidden { self.source.label() } else { 0 };
        let value = self.source.random.pick(&[0, 0, 1, 1, -1, 5]);
        self.push(value, label, scope);
        label
    }

    /// A block that leaves the height as it was.
    fn block(&mut self, scope: Scope) {
        let mut inner = Scope {
            depth: scope.depth + 1,
            ..scope
        };
        for _ in 0..self.source.random.within(0..=4) {
            self.statement(&mut inner);
        }
        while inner.height > scope.height {
            self.done(operation::POP, 1, &mut inner);
        }
        while inner.height < scope.height {
            self.push_any(&mut inner);
        }
    }

    fn branch(&mut self, scope: &mut Scope) {
        if scope.depth > 3 {
            return self.push_any(scope);
        }
        let label = self.condition(scope);
        let place = self.program.len();
        self.done(operation::BNZ, 1, scope);
        scope.counter = self.source.kind.join(scope.counter, label);
        self.block(*scope);
        let distance = (self.program.len() - place) as i32;
        self.program[place].value = if self.source.random.percent(2) {
            self.source.value()
        } else {
            distance
        };
    }

    /// One of two numbers, by a condition.
    fn choice(&mut self, scope: &mut Scope) {
        let label = self.condition(scope);
        self.done(operation::BNZ, 1, scope);
        *self.program.last_mut().expect("a branch was put there") = bnz(4);
        scope.counter = self.source.kind.join(scope.counter, label);
        let (one, other) = (self.source.number(), self.source.number());
        let end = self.program.len() as i32 + 4;
        self.program.extend([
            push(one.value, one.label),
            push(end, 0),
            plain(operation::JUMP),
            push(other.value, other.label),
        ]);
        scope.height += 1;
    }

    fn counting_loop(&mut self, scope: &mut Scope) {
        if scope.depth > 2 {
            return self.push_any(scope);
        }
        let rounds = match self.source.random.below(20) {
            0 => self.source.random.within(20..=300),
            _ => self.source.random.within(1..=5),
        };
        let cell = self.storable(scope.counter) as i32;
        self.push(rounds as i32, scope.counter, scope);
        self.push(cell, 0, scope);
        self.done(operation::STORE, 2, scope);
        let start = self.program.len();
        self.block(*scope);
        self.push(cell, 0, scope);
        self.program.push(plain(operation::LOAD));
        self.push(-1, 0, scope);
        self.done(operation::ADD, 1, scope);
        self.push(cell, 0, scope);
        self.done(operation::STORE, 2, scope);
        self.push(cell, 0, scope);
        self.program.push(plain(operation::LOAD));
        let distance = start as i32 - self.program.len() as i32;
        self.done(operation::BNZ, 1, scope);
        *self.program.last_mut().expect("a branch was put there") = bnz(distance);
    }

    fn jump(&mut self, scope: &mut Scope) {
        if scope.depth > 3 {
            return self.push_any(scope);
        }
        let label = if scope.hidden { self.source.label() } else { 0 };
        let place = self.program.len();
        self.push(0, label, scope);
        self.done(operation::JUMP, 1, scope);
        scope.counter = self.source.kind.join(scope.counter, label);
        self.block(*scope);
        self.program[place].value = self.program.len() as i32;
    }

    fn call(&mut self, scope: &mut Scope) {
        if scope.callable >= self.functions.len() {
            return self.push_any(scope);
        }
        let index = self
            .source
            .random
            .within(scope.callable..=self.functions.len() - 1);
        self.call_to(index, scope);
    }

    fn call_to(&mut self, index: usize, scope: &mut Scope) {
        let function = self.functions[index];
        self.at_least(function.arguments, scope);
        self.targets.push((self.program.len(), index));
        let label = self.source.label();
        self.push(0, label, scope);
        self.program
            .push(call(function.arguments as i32, function.due));
        scope.height = scope.height.saturating_sub(function.arguments + 1);
        if function.due {
            scope.height += 1;
        }
    }
}
