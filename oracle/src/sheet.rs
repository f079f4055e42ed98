//! Prints plans as station sheets. What a sheet cannot say is said in comments.

#![forbid(unsafe_code)]

use crate::kinds::Kind;
use crate::plan::{
    Call, Comparison, Entry, KINDS, Number, Operation, Plan, Side, call, form, operation,
};
use std::fmt::Write;

const POLICIES: [&str; 4] = [
    "direct",
    "row table",
    "cached over the row table",
    "cached over cached over direct",
];

/// A plan as a sheet.
pub fn of_plan(plan: &Plan) -> String {
    let mut sheet = Sheet::new(plan.kind, plan.policy);
    sheet.head(&plan.memory, plan.stack.len(), plan.log.len());
    sheet.held_before(&plan.stack, &plan.log);
    if plan.other_replies != 0 {
        let room = plan.room_for_replies();
        sheet.line(&format!("# room is given for {room} replies"));
    }
    sheet.program(&plan.program);
    sheet.calls(&plan.calls);
    sheet.text
}

/// A comparison as two sheets.
pub fn of_comparison(comparison: &Comparison) -> String {
    let level = Kind::of(comparison.kind).text(comparison.level);
    let mut text = format!("# compared as an observer at {level} sees them\n");
    for (which, side) in [("first", &comparison.first), ("second", &comparison.second)] {
        writeln!(text, "# the {which} station").expect("a string takes all");
        text += &of_side(comparison, side);
    }
    text
}

fn of_side(comparison: &Comparison, side: &Side) -> String {
    let mut sheet = Sheet::new(comparison.kind, comparison.policy);
    sheet.head(&side.memory, comparison.stack, comparison.log);
    sheet.program(&side.program);
    sheet.calls(&side.calls);
    sheet.text
}

/// A sheet that is being written.
struct Sheet {
    text: String,
    kind: Kind,
}

impl Sheet {
    fn new(kind: u32, policy: u32) -> Self {
        let mut sheet = Self {
            text: String::new(),
            kind: Kind::of(kind),
        };
        match POLICIES.get(policy as usize) {
            Some(policy) => sheet.line(&format!("# policy: {policy}")),
            None => sheet.line(&format!("# policy {policy} codes nothing")),
        }
        if kind >= KINDS {
            sheet.line(&format!("# kind {kind} codes nothing"));
        }
        sheet.line(&format!("labels {}", sheet.kind.name()));
        sheet
    }

    fn line(&mut self, line: &str) {
        self.text += line;
        self.text.push('\n');
    }

    fn number(&self, value: impl Into<i64>, label: u32) -> String {
        format!("{}@{}", value.into(), self.label(label))
    }

    fn label(&self, label: u32) -> String {
        if self.kind.codes(label) {
            self.kind.text(label)
        } else {
            format!("(codes no label: {label})")
        }
    }

    fn head(&mut self, memory: &[Number], stack: usize, log: usize) {
        self.line(&format!("memory {}", memory.len()));
        self.line(&format!("stack {stack}"));
        self.line(&format!("log {log}"));
        for (place, cell) in memory.iter().enumerate() {
            if *cell != Number::default() {
                let number = self.number(cell.value, cell.label);
                self.line(&format!("cell {place} {number}"));
            }
        }
    }

    /// What stack and log hold when the station is made.
    fn held_before(&mut self, stack: &[Entry], log: &[Number]) {
        for (place, entry) in stack.iter().enumerate() {
            if *entry != Entry::default() {
                let what = match entry.form {
                    form::NUMBER => "".to_owned(),
                    form::FRAME => "a frame without a result due, ".to_owned(),
                    form::FRAME_WITH_RESULT => "a frame with a result due, ".to_owned(),
                    other => format!("form {other}, which codes nothing, "),
                };
                let number = self.number(entry.number, entry.label);
                self.line(&format!("# stack {place} holds {what}{number} before"));
            }
        }
        for (place, command) in log.iter().enumerate() {
            if *command != Number::default() {
                let number = self.number(command.value, command.label);
                self.line(&format!("# log {place} holds {number} before"));
            }
        }
    }

    fn program(&mut self, program: &[Operation]) {
        self.line("program");
        for operation in program {
            let line = self.operation(operation);
            self.line(&format!("    {line}"));
        }
    }

    fn operation(&self, operation: &Operation) -> String {
        let plain = match operation.code {
            operation::PUSH => {
                return format!("push {}", self.number(operation.value, operation.label));
            }
            operation::BNZ => return format!("bnz {}", operation.value),
            operation::CALL => return format!("call {} {}", operation.value, operation.due),
            operation::POP => "pop",
            operation::NOOP => "noop",
            operation::ADD => "add",
            operation::SUB => "sub",
            operation::LESS => "less",
            operation::LOAD => "load",
            operation::STORE => "store",
            operation::JUMP => "jump",
            operation::RETURN => "return",
            operation::OUTPUT => "output",
            operation::HALT => "halt",
            other => return format!("# operation {other} codes nothing"),
        };
        plain.to_owned()
    }

    fn calls(&mut self, calls: &[Call]) {
        self.line("calls");
        for call in calls {
            let line = self.call(call);
            self.line(&format!("    {line}"));
        }
    }

    fn call(&self, call: &Call) -> String {
        let index = call.index;
        let label = self.label(call.label);
        let line = match call.code {
            call::ENTER => format!("enter {index} {}", self.number(call.value, call.label)),
            call::LOOK => format!("look {index} {label}"),
            call::START => "start".to_owned(),
            call::GO => format!("go {index}"),
            call::NEXT_COMMAND => format!("command {index} {label}"),
            other => format!("# call {other} codes nothing"),
        };
        match call.lent {
            0 if index > u32::MAX.into() => format!("# {line}    (more than a sheet can say)"),
            0 => line,
            1 => format!(
                "{line}    # on others' parts: program {}, memory {}, stack {}, log {}",
                call.program, call.memory, call.stack, call.log
            ),
            other => format!("{line}    # lent is {other}, which codes nothing"),
        }
    }
}

#[cfg(test)]
mod tests {
    use super::*;

    #[test]
    fn a_sheet() {
        let plan = Plan {
            kind: 3,
            policy: 2,
            program: vec![
                Operation {
                    value: -1,
                    label: 5 << 16 | 5,
                    ..Operation::default()
                },
                Operation {
                    code: operation::CALL,
                    value: 2,
                    due: 1,
                    ..Operation::default()
                },
            ],
            memory: vec![Number { value: 4, label: 1 }, Number::default()],
            stack: vec![Entry::default()],
            log: vec![Number::default(); 2],
            calls: vec![Call {
                code: call::GO,
                index: 7,
                lent: 1,
                memory: 3,
                ..Call::default()
            }],
            other_replies: 0,
        };
        let expected = "\
# policy: cached over the row table
labels levels growers
memory 2
stack 1
log 2
cell 0 4@00001
program
    push -1@50005
    call 2 1
calls
    go 7    # on others' parts: program 0, memory 3, stack 0, log 0
";
        assert_eq!(of_plan(&plan), expected);
    }
}
