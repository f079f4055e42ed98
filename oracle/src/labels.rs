//! Labels: who may know a number.

#![forbid(unsafe_code)]

use std::fmt;

/// A lattice of labels with a bottom and a join.
///
/// The order is a partial order, the bottom is below every label, and the join is the least label above both.
pub trait Label: Copy + Eq + fmt::Debug {
    /// The label of what everybody may know.
    fn bottom() -> Self;

    /// Whether this label is at or below the other.
    fn flows_to(self, other: Self) -> bool;

    /// The label of what was made from both.
    #[must_use]
    fn join(self, other: Self) -> Self;
}

/// A level from 0 to 7, ordered by number.
#[derive(Clone, Copy, PartialEq, Eq, Debug)]
pub struct Level(u8);

impl Level {
    /// The highest level.
    pub const HIGHEST: u8 = 7;

    /// The level of that number, if there is one.
    pub const fn new(number: u8) -> Option<Self> {
        if number <= Self::HIGHEST {
            Some(Self(number))
        } else {
            None
        }
    }

    /// The number of this level.
    pub const fn number(self) -> u8 {
        self.0
    }
}

impl Label for Level {
    #[inline]
    fn bottom() -> Self {
        Self(0)
    }

    #[inline]
    fn flows_to(self, other: Self) -> bool {
        self.0 <= other.0
    }

    #[inline]
    fn join(self, other: Self) -> Self {
        Self(self.0.max(other.0))
    }
}

impl fmt::Display for Level {
    fn fmt(&self, formatter: &mut fmt::Formatter<'_>) -> fmt::Result {
        write!(formatter, "{}", self.0)
    }
}

/// A set of sixteen growers as a mask, grower 0 the lowest bit, ordered by inclusion.
#[derive(Clone, Copy, PartialEq, Eq, Debug)]
pub struct Growers(pub u16);

impl Label for Growers {
    #[inline]
    fn bottom() -> Self {
        Self(0)
    }

    #[inline]
    fn flows_to(self, other: Self) -> bool {
        self.0 & !other.0 == 0
    }

    #[inline]
    fn join(self, other: Self) -> Self {
        Self(self.0 | other.0)
    }
}

impl fmt::Display for Growers {
    fn fmt(&self, formatter: &mut fmt::Formatter<'_>) -> fmt::Result {
        write!(formatter, "{:04x}", self.0)
    }
}

/// A label of each of two kinds, ordered in both parts.
#[derive(Clone, Copy, PartialEq, Eq, Debug)]
pub struct Pair<A, B> {
    pub left: A,
    pub right: B,
}

impl<A: Label, B: Label> Label for Pair<A, B> {
    #[inline]
    fn bottom() -> Self {
        Self {
            left: A::bottom(),
            right: B::bottom(),
        }
    }

    #[inline]
    fn flows_to(self, other: Self) -> bool {
        self.left.flows_to(other.left) && self.right.flows_to(other.right)
    }

    #[inline]
    fn join(self, other: Self) -> Self {
        Self {
            left: self.left.join(other.left),
            right: self.right.join(other.right),
        }
    }
}

impl<A: fmt::Display, B: fmt::Display> fmt::Display for Pair<A, B> {
    fn fmt(&self, formatter: &mut fmt::Formatter<'_>) -> fmt::Result {
        write!(formatter, "{}{}", self.left, self.right)
    }
}

#[cfg(test)]
mod tests {
    use super::*;

    /// Checks the laws of the order, the bottom and the join on every triple of these labels.
    fn check_laws<L: Label>(labels: &[L]) {
        for &a in labels {
            assert!(a.flows_to(a));
            assert!(L::bottom().flows_to(a));
            for &b in labels {
                let join = a.join(b);
                assert!(a.flows_to(join) && b.flows_to(join));
                assert!(!(a.flows_to(b) && b.flows_to(a)) || a == b);
                for &c in labels {
                    assert!(!(a.flows_to(b) && b.flows_to(c)) || a.flows_to(c));
                    assert!(!(a.flows_to(c) && b.flows_to(c)) || join.flows_to(c));
                }
            }
        }
    }

    fn levels() -> Vec<Level> {
        (0..=7).filter_map(Level::new).collect()
    }

    fn growers() -> Vec<Growers> {
        [0, 1, 2, 3, 5, 6, 0x8000, 0x8001, 0xffff]
            .map(Growers)
            .to_vec()
    }

    fn pairs<A: Label, B: Label>(lefts: &[A], rights: &[B]) -> Vec<Pair<A, B>> {
        let all_of = |&left: &A| rights.iter().map(move |&right| Pair { left, right });
        lefts.iter().flat_map(all_of).collect()
    }

    #[test]
    fn every_kind_keeps_the_laws() {
        check_laws(&levels());
        check_laws(&growers());
        check_laws(&pairs(&levels(), &growers()));
        check_laws(&pairs(&growers(), &levels()));
        check_laws(&pairs(
            &levels()[..3],
            &pairs(&levels()[..3], &growers()[..4]),
        ));
    }

    #[test]
    fn there_is_no_level_above_seven() {
        assert_eq!(Level::new(7).map(Level::number), Some(7));
        assert_eq!(Level::new(8), None);
    }

    #[test]
    fn incomparable_growers() {
        let (one, two) = (Growers(1), Growers(2));
        assert!(!one.flows_to(two) && !two.flows_to(one));
        assert_eq!(one.join(two), Growers(3));
    }

    #[test]
    fn texts() {
        let left = Level(5);
        let right = Growers(5);
        assert_eq!(Pair { left, right }.to_string(), "50005");
    }
}
