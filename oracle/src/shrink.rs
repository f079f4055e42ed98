//! Makes a plan on which two engines disagree as small as it can be.

#![forbid(unsafe_code)]

use crate::kinds::Kind;
use crate::plan::{Call, Comparison, Entry, KINDS, Number, Operation, Plan, operation};

/// How many smaller ones are tried at most.
const TRIES: usize = 30_000;

/// The smallest plan found that still fails.
pub fn plan(plan: Plan, fails: impl FnMut(&Plan) -> bool) -> Plan {
    Shrinker::new(plan, fails).until_nothing_helps(|shrinker| {
        shrinker.codes(|plan| &mut plan.policy);
        shrinker.kinds(relabelled_plan);
        shrinker.drop_items(|plan| &mut plan.calls);
        shrinker.drop_items(|plan| &mut plan.program);
        shrinker.drop_items(|plan| &mut plan.memory);
        shrinker.drop_items(|plan| &mut plan.stack);
        shrinker.drop_items(|plan| &mut plan.log);
        shrinker.simplify_items(|plan| &mut plan.calls, simpler_calls);
        shrinker.simplify_items(|plan| &mut plan.program, simpler_operations);
        shrinker.simplify_items(|plan| &mut plan.memory, simpler_numbers);
        shrinker.simplify_items(|plan| &mut plan.stack, simpler_entries);
        shrinker.simplify_items(|plan| &mut plan.log, simpler_numbers);
    })
}

/// The smallest comparison found that still fails.
pub fn comparison(comparison: Comparison, fails: impl FnMut(&Comparison) -> bool) -> Comparison {
    Shrinker::new(comparison, fails).until_nothing_helps(|shrinker| {
        shrinker.codes(|comparison| &mut comparison.policy);
        shrinker.kinds(relabelled_comparison);
        shrinker.codes(|comparison| &mut comparison.level);
        shrinker.lengths(|comparison| &mut comparison.stack);
        shrinker.lengths(|comparison| &mut comparison.log);
        shrinker.drop_from_both(|c| &mut c.first.program, |c| &mut c.second.program);
        shrinker.drop_from_both(|c| &mut c.first.memory, |c| &mut c.second.memory);
        shrinker.drop_from_both(|c| &mut c.first.calls, |c| &mut c.second.calls);
        shrinker.drop_items(|c| &mut c.first.calls);
        shrinker.drop_items(|c| &mut c.second.calls);
        shrinker.drop_items(|c| &mut c.first.program);
        shrinker.drop_items(|c| &mut c.second.program);
        shrinker.drop_items(|c| &mut c.first.memory);
        shrinker.drop_items(|c| &mut c.second.memory);
        shrinker.simplify_items(|c| &mut c.first.calls, simpler_calls);
        shrinker.simplify_items(|c| &mut c.second.calls, simpler_calls);
        shrinker.simplify_items(|c| &mut c.first.program, simpler_operations);
        shrinker.simplify_items(|c| &mut c.second.program, simpler_operations);
        shrinker.simplify_items(|c| &mut c.first.memory, simpler_numbers);
        shrinker.simplify_items(|c| &mut c.second.memory, simpler_numbers);
    })
}

/// A subject that fails, and the question whether a smaller one fails too.
struct Shrinker<S, F> {
    subject: S,
    fails: F,
    tries: usize,
}

impl<S: Clone + PartialEq, F: FnMut(&S) -> bool> Shrinker<S, F> {
    fn new(subject: S, fails: F) -> Self {
        Self {
            subject,
            fails,
            tries: 0,
        }
    }

    fn until_nothing_helps(mut self, passes: impl Fn(&mut Self)) -> S {
        loop {
            let before = self.subject.clone();
            passes(&mut self);
            if self.subject == before || self.tries >= TRIES {
                return self.subject;
            }
        }
    }

    /// Takes a smaller one in place of the subject, if it fails.
    fn attempt(&mut self, smaller: S) -> bool {
        if self.tries >= TRIES || smaller == self.subject {
            return false;
        }
        self.tries += 1;
        let fails = (self.fails)(&smaller);
        if fails {
            self.subject = smaller;
        }
        fails
    }

    fn attempt_change(&mut self, change: impl FnOnce(&mut S)) -> bool {
        let mut smaller = self.subject.clone();
        change(&mut smaller);
        self.attempt(smaller)
    }

    /// Tries a smaller code, from 0 on.
    fn codes(&mut self, code: impl Fn(&mut S) -> &mut u32) {
        let now = *code(&mut self.subject.clone());
        for smaller in 0..now.min(8) {
            if self.attempt_change(|subject| *code(subject) = smaller) {
                return;
            }
        }
    }

    fn lengths(&mut self, length: impl Fn(&mut S) -> &mut usize) {
        loop {
            let now = *length(&mut self.subject.clone());
            let smaller = [1, now / 2, now.saturating_sub(1)];
            let helps = smaller.into_iter().any(|smaller| {
                smaller < now && self.attempt_change(|subject| *length(subject) = smaller)
            });
            if !helps {
                return;
            }
        }
    }

    /// Tries simpler kinds of labels.
    fn kinds(&mut self, relabelled: impl Fn(&S, u32, Relabel) -> S) {
        for kind in 0..KINDS {
            for relabel in Relabel::ALL {
                let smaller = relabelled(&self.subject, kind, relabel);
                if self.attempt(smaller) {
                    return;
                }
            }
        }
    }

    /// Drops items, many at once first, and one by one in the end.
    fn drop_items<T>(&mut self, list: impl Fn(&mut S) -> &mut Vec<T>) {
        self.drop_chunks(
            |subject| list(subject).len(),
            |subject, from, to| {
                list(subject).drain(from..to);
            },
        );
    }

    /// Drops items at the same places of two lists.
    fn drop_from_both<T>(
        &mut self,
        one: impl Fn(&mut S) -> &mut Vec<T>,
        other: impl Fn(&mut S) -> &mut Vec<T>,
    ) {
        let length = |subject: &mut S| one(subject).len().min(other(subject).len());
        self.drop_chunks(length, |subject, from, to| {
            one(subject).drain(from..to);
            other(subject).drain(from..to);
        });
    }

    fn drop_chunks(
        &mut self,
        length: impl Fn(&mut S) -> usize,
        drop: impl Fn(&mut S, usize, usize),
    ) {
        let mut chunk = length(&mut self.subject);
        while chunk > 0 {
            let mut from = 0;
            loop {
                let length = length(&mut self.subject);
                if from >= length {
                    break;
                }
                let to = length.min(from + chunk);
                if !self.attempt_change(|subject| drop(subject, from, to)) {
                    from = to;
                }
            }
            chunk /= 2;
        }
    }

    /// Tries simpler items in place of each.
    fn simplify_items<T: Copy>(
        &mut self,
        list: impl Fn(&mut S) -> &mut Vec<T>,
        simpler: impl Fn(T) -> Vec<T>,
    ) {
        let mut place = 0;
        while let Some(&item) = list(&mut self.subject).get(place) {
            let mut candidates = simpler(item).into_iter();
            let helps = candidates
                .any(|candidate| self.attempt_change(|subject| list(subject)[place] = candidate));
            if !helps {
                place += 1;
            }
        }
    }
}

/// Values nearer to 0.
fn simpler_values(value: i32) -> Vec<i32> {
    let mut values = vec![0, 1, value / 2, value - value.signum()];
    values.retain(|simpler| simpler.unsigned_abs() < value.unsigned_abs());
    values
}

/// Labels with less in them.
fn simpler_labels(label: u32) -> Vec<u32> {
    let mut labels = vec![
        0,
        label & 0xffff,
        label >> 16 << 16,
        label & label.wrapping_sub(1),
    ];
    labels.retain(|&simpler| simpler < label);
    labels
}

/// A number that two fields hold.
fn simpler_pairs<T>(value: i32, label: u32, make: impl Fn(i32, u32) -> T) -> Vec<T> {
    let values = simpler_values(value)
        .into_iter()
        .map(|value| (value, label));
    let labels = simpler_labels(label)
        .into_iter()
        .map(|label| (value, label));
    values
        .chain(labels)
        .map(|(value, label)| make(value, label))
        .collect()
}

fn simpler_numbers(number: Number) -> Vec<Number> {
    simpler_pairs(number.value, number.label, |value, label| Number {
        value,
        label,
    })
}

fn simpler_entries(entry: Entry) -> Vec<Entry> {
    if entry == Entry::default() {
        Vec::new()
    } else {
        vec![Entry::default()]
    }
}

fn simpler_operations(operation: Operation) -> Vec<Operation> {
    let simpler = simpler_pairs(operation.value, operation.label, |value, label| Operation {
        value,
        label,
        ..operation
    });
    let noop = Operation {
        code: operation::NOOP,
        ..Operation::default()
    };
    let to_noop = (operation.code != operation::NOOP).then_some(noop);
    to_noop.into_iter().chain(simpler).collect()
}

fn simpler_calls(call: Call) -> Vec<Call> {
    let mut simpler = Vec::new();
    if call.lent == 1 {
        simpler.push(Call {
            lent: 0,
            program: 0,
            memory: 0,
            stack: 0,
            log: 0,
            ..call
        });
    }
    for index in [0, 1, call.index / 2, call.index.saturating_sub(1)] {
        if index < call.index {
            simpler.push(Call { index, ..call });
        }
    }
    simpler.extend(simpler_pairs(call.value, call.label, |value, label| Call {
        value,
        label,
        ..call
    }));
    simpler
}

/// How labels of one kind are made labels of another.
#[derive(Clone, Copy, Debug)]
enum Relabel {
    Same,
    Left,
    Right,
}

impl Relabel {
    const ALL: [Self; 3] = [Self::Same, Self::Left, Self::Right];

    fn label(self, kind: Kind, label: u32) -> u32 {
        let wanted = match self {
            Self::Same => label,
            Self::Left => label >> 16,
            Self::Right => label & 0xffff,
        };
        if kind.codes(wanted) {
            wanted
        } else {
            kind.top() & wanted
        }
    }

    fn numbers(self, kind: Kind, numbers: &mut [Number]) {
        for number in numbers {
            number.label = self.label(kind, number.label);
        }
    }

    fn operations(self, kind: Kind, program: &mut [Operation]) {
        for operation in program {
            operation.label = self.label(kind, operation.label);
        }
    }

    fn calls(self, kind: Kind, calls: &mut [Call]) {
        for call in calls {
            call.label = self.label(kind, call.label);
        }
    }
}

/// The same plan with labels of a simpler kind; unchanged if the kind is none.
fn relabelled_plan(plan: &Plan, number: u32, relabel: Relabel) -> Plan {
    let mut plan = plan.clone();
    if number >= plan.kind {
        return plan;
    }
    let kind = Kind::of(number);
    plan.kind = number;
    relabel.operations(kind, &mut plan.program);
    relabel.numbers(kind, &mut plan.memory);
    relabel.numbers(kind, &mut plan.log);
    relabel.calls(kind, &mut plan.calls);
    for entry in &mut plan.stack {
        entry.label = relabel.label(kind, entry.label);
    }
    plan
}

fn relabelled_comparison(comparison: &Comparison, number: u32, relabel: Relabel) -> Comparison {
    let mut comparison = comparison.clone();
    if number >= comparison.kind {
        return comparison;
    }
    let kind = Kind::of(number);
    comparison.kind = number;
    comparison.level = relabel.label(kind, comparison.level);
    for side in [&mut comparison.first, &mut comparison.second] {
        relabel.operations(kind, &mut side.program);
        relabel.numbers(kind, &mut side.memory);
        relabel.calls(kind, &mut side.calls);
    }
    comparison
}

#[cfg(test)]
mod tests {
    use super::*;

    #[test]
    fn values_and_labels_get_simpler() {
        assert_eq!(simpler_values(0), []);
        assert_eq!(simpler_values(-9), [0, 1, -4, -8]);
        assert_eq!(simpler_values(i32::MIN)[0], 0);
        assert!(simpler_labels(0x7_0003).contains(&3));
    }

    #[test]
    fn only_what_is_needed_is_left() {
        let operation = |value| Operation {
            value,
            ..Operation::default()
        };
        let subject = Plan {
            kind: 5,
            policy: 3,
            program: (0..50).map(operation).collect(),
            memory: vec![Number { value: 3, label: 9 }; 10],
            ..Plan::default()
        };
        let small = plan(subject, |plan| {
            plan.memory.len() >= 2 && plan.program.iter().any(|operation| operation.value >= 17)
        });
        assert_eq!((small.kind, small.policy), (0, 0));
        assert_eq!(small.program, [operation(17)]);
        assert_eq!(small.memory, [Number::default(); 2]);
    }
}
