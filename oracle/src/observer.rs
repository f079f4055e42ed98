//! What an observer at a level has of a station, and what is alike to him.

#![forbid(unsafe_code)]

use crate::labels::Label;
use crate::machine::{Number, Operation};

/// A call that counts when lists of calls are compared.
#[derive(Clone, Copy, PartialEq, Eq, Debug)]
pub enum Counted<L> {
    Enter { cell: u64, number: Number<L> },
    Start,
}

/// Whether two numbers are the same, or neither may flow to the observer.
pub fn numbers_alike<L: Label>(one: &Number<L>, other: &Number<L>, level: L) -> bool {
    one == other || !(one.label.flows_to(level) || other.label.flows_to(level))
}

/// Whether two operations are the same, but for what is pushed, which needs to be alike only.
pub fn operations_alike<L: Label>(one: &Operation<L>, other: &Operation<L>, level: L) -> bool {
    match (one, other) {
        (Operation::Push(one), Operation::Push(other)) => numbers_alike(one, other, level),
        _ => one == other,
    }
}

/// Whether two calls are the same, but for the number that is entered, which needs to be alike only.
pub fn calls_alike<L: Label>(one: &Counted<L>, other: &Counted<L>, level: L) -> bool {
    match (one, other) {
        (Counted::Enter { cell: a, number: x }, Counted::Enter { cell: b, number: y }) => {
            a == b && numbers_alike(x, y, level)
        }
        _ => one == other,
    }
}

/// The commands at or below the level, in order.
pub fn visible<L: Label>(commands: &[Number<L>], level: L) -> Vec<Number<L>> {
    let flows = |command: &&Number<L>| command.label.flows_to(level);
    commands.iter().filter(flows).copied().collect()
}

/// The first place where both lists hold something and it is not alike.
pub fn first_difference<T>(
    one: &[T],
    other: &[T],
    alike: impl Fn(&T, &T) -> bool,
) -> Option<usize> {
    one.iter().zip(other).position(|(x, y)| !alike(x, y))
}

/// The first place where the lists are not alike, or only one of them holds something.
pub fn first_unlike<T>(one: &[T], other: &[T], alike: impl Fn(&T, &T) -> bool) -> Option<usize> {
    first_difference(one, other, alike)
        .or_else(|| (one.len() != other.len()).then(|| one.len().min(other.len())))
}

#[cfg(test)]
mod tests {
    use super::*;
    use crate::labels::Growers;

    fn number(value: i32, label: u16) -> Number<Growers> {
        Number {
            value,
            label: Growers(label),
        }
    }

    #[test]
    fn numbers_are_alike_if_the_same_or_both_hidden() {
        let level = Growers(1);
        let alike = |one, other| numbers_alike(&one, &other, level);
        assert!(alike(number(1, 1), number(1, 1)));
        assert!(!alike(number(1, 1), number(2, 1)));
        assert!(!alike(number(1, 0), number(1, 1)));
        assert!(alike(number(1, 2), number(5, 4)));
        assert!(!alike(number(1, 2), number(1, 1)));
    }

    #[test]
    fn only_pushes_may_differ() {
        let level = Growers(0);
        let alike = |one, other| operations_alike(&one, &other, level);
        let push = |value, label| Operation::Push(number(value, label));
        assert!(alike(push(1, 1), push(2, 2)));
        assert!(!alike(push(1, 0), push(2, 0)));
        assert!(!alike(Operation::Bnz(1), Operation::Bnz(2)));
        assert!(alike(Operation::Add, Operation::Add));
    }

    #[test]
    fn entered_numbers_need_to_be_alike_only() {
        let enter = |cell, value, label| Counted::Enter {
            cell,
            number: number(value, label),
        };
        let alike = |one, other| calls_alike(&one, &other, Growers(0));
        assert!(alike(enter(1, 1, 1), enter(1, 2, 1)));
        assert!(!alike(enter(1, 1, 1), enter(2, 1, 1)));
        assert!(!alike(enter(1, 1, 1), Counted::Start));
        assert!(alike(Counted::Start, Counted::Start));
    }

    #[test]
    fn lists() {
        let same = |x: &u8, y: &u8| x == y;
        assert_eq!(first_unlike(&[1, 2], &[1, 2], same), None);
        assert_eq!(first_unlike(&[1, 2], &[1], same), Some(1));
        assert_eq!(first_unlike(&[1, 2], &[2], same), Some(0));
        assert_eq!(first_difference(&[1, 2], &[1], same), None);
        assert_eq!(first_difference(&[], &[1], same), None);
        assert_eq!(first_difference(&[1, 2], &[1, 3, 4], same), Some(1));
    }

    #[test]
    fn visible_commands() {
        let commands = [number(1, 1), number(2, 2), number(3, 0)];
        let seen = visible(&commands, Growers(1));
        assert_eq!(seen, [number(1, 1), number(3, 0)]);
    }
}
