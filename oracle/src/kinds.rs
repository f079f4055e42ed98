//! The kinds of labels in plain numbers, for the generator and for printing.

#![forbid(unsafe_code)]

use crate::plan::KINDS;
use crate::random::Random;

/// A kind that is no pair.
#[derive(Clone, Copy, PartialEq, Eq, Debug)]
enum Simple {
    Levels,
    Growers,
}

impl Simple {
    fn name(self) -> &'static str {
        match self {
            Self::Levels => "levels",
            Self::Growers => "growers",
        }
    }

    fn codes(self, code: u32) -> bool {
        match self {
            Self::Levels => code <= 7,
            Self::Growers => code <= 0xffff,
        }
    }

    fn flows(self, code: u32, other: u32) -> bool {
        match self {
            Self::Levels => code <= other,
            Self::Growers => code & !other == 0,
        }
    }

    fn join(self, code: u32, other: u32) -> u32 {
        match self {
            Self::Levels => code.max(other),
            Self::Growers => code | other,
        }
    }

    fn text(self, code: u32) -> String {
        match self {
            Self::Levels => format!("{code}"),
            Self::Growers => format!("{code:04x}"),
        }
    }

    /// A label, low mostly.
    fn random(self, random: &mut Random) -> u32 {
        match (self, random.below(10)) {
            (_, 0..3) => 0,
            (Self::Levels, 3..8) => random.within(1..=3) as u32,
            (Self::Levels, _) => random.below(8) as u32,
            (Self::Growers, 3..7) => 1 << random.below(3),
            (Self::Growers, 7) => 1 << random.below(16),
            (Self::Growers, 8) => random.below(8) as u32,
            (Self::Growers, _) => random.below(0x1_0000) as u32,
        }
    }
}

/// A kind of label.
#[derive(Clone, Copy, PartialEq, Eq, Debug)]
pub struct Kind {
    left: Option<Simple>,
    right: Simple,
}

impl Kind {
    /// The kind of that number; what codes none is treated as levels.
    pub fn of(number: u32) -> Self {
        use Simple::{Growers, Levels};
        let (left, right) = match number {
            1 => (None, Growers),
            2 => (Some(Levels), Levels),
            3 => (Some(Levels), Growers),
            4 => (Some(Growers), Levels),
            5 => (Some(Growers), Growers),
            _ => (None, Levels),
        };
        Self { left, right }
    }

    pub fn all() -> impl Iterator<Item = Self> {
        (0..KINDS).map(Self::of)
    }

    /// The kind as a sheet names it.
    pub fn name(self) -> String {
        match self.left {
            Some(left) => format!("{} {}", left.name(), self.right.name()),
            None => self.right.name().to_owned(),
        }
    }

    fn split(self, code: u32) -> (u32, u32) {
        match self.left {
            Some(_) => (code >> 16, code & 0xffff),
            None => (0, code),
        }
    }

    /// Whether a number codes a label of this kind.
    pub fn codes(self, code: u32) -> bool {
        let (left, right) = self.split(code);
        self.left.is_none_or(|kind| kind.codes(left)) && self.right.codes(right)
    }

    pub fn flows(self, code: u32, other: u32) -> bool {
        let (left, right) = self.split(code);
        let (other_left, other_right) = self.split(other);
        self.left.is_none_or(|kind| kind.flows(left, other_left))
            && self.right.flows(right, other_right)
    }

    pub fn join(self, code: u32, other: u32) -> u32 {
        let (left, right) = self.split(code);
        let (other_left, other_right) = self.split(other);
        let left = self.left.map_or(0, |kind| kind.join(left, other_left));
        left << 16 | self.right.join(right, other_right)
    }

    /// The label as a sheet writes it.
    pub fn text(self, code: u32) -> String {
        let (left, right) = self.split(code);
        let left = self.left.map(|kind| kind.text(left)).unwrap_or_default();
        left + &self.right.text(right)
    }

    /// A label, low mostly.
    pub fn random(self, random: &mut Random) -> u32 {
        let left = self.left.map_or(0, |kind| kind.random(random));
        left << 16 | self.right.random(random)
    }

    /// A label that is above all others.
    pub fn top(self) -> u32 {
        let top = |kind| match kind {
            Simple::Levels => 7,
            Simple::Growers => 0xffff,
        };
        self.left.map_or(0, top) << 16 | top(self.right)
    }

    /// A number that codes no label, if there is one.
    pub fn no_label(self, random: &mut Random) -> Option<u32> {
        (0..32)
            .map(|_| match random.below(3) {
                0 => random.next_number() as u32,
                1 => 1 << random.below(32),
                _ => random.pick(&[8, 0x1_0000, 0x8_0000, 0x8, u32::MAX, 0x7_0008]),
            })
            .find(|&code| !self.codes(code))
    }
}

#[cfg(test)]
mod tests {
    use super::*;

    #[test]
    fn texts_and_names() {
        assert_eq!(Kind::of(3).text(5 << 16 | 5), "50005");
        assert_eq!(Kind::of(1).text(0x1f), "001f");
        assert_eq!(Kind::of(4).name(), "growers levels");
    }

    #[test]
    fn random_labels_are_labels() {
        let mut random = Random::new(3);
        for kind in Kind::all() {
            assert!(kind.codes(kind.top()));
            for _ in 0..200 {
                let (one, other) = (kind.random(&mut random), kind.random(&mut random));
                assert!(kind.codes(one));
                let join = kind.join(one, other);
                assert!(kind.flows(one, join) && kind.flows(join, kind.top()));
                assert!(
                    kind.no_label(&mut random)
                        .is_none_or(|code| !kind.codes(code))
                );
            }
        }
    }
}
