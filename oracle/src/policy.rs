//! Policies: what may be done, and the labels of what comes of it.

#![forbid(unsafe_code)]

use crate::labels::Label;

/// The thirteen operations that a policy is asked for.
#[derive(Clone, Copy, PartialEq, Eq, Debug)]
#[repr(u8)]
pub enum Name {
    Push,
    Pop,
    Noop,
    Add,
    Sub,
    Less,
    Load,
    Store,
    Jump,
    Bnz,
    Call,
    Return,
    Output,
}

impl Name {
    pub const COUNT: usize = 13;

    pub const ALL: [Self; Self::COUNT] = [
        Self::Push,
        Self::Pop,
        Self::Noop,
        Self::Add,
        Self::Sub,
        Self::Less,
        Self::Load,
        Self::Store,
        Self::Jump,
        Self::Bnz,
        Self::Call,
        Self::Return,
        Self::Output,
    ];
}

/// May this operation be done with these labels? Labels that it does not use are bottom.
#[derive(Clone, Copy, PartialEq, Eq, Debug)]
pub struct Request<L> {
    pub name: Name,
    /// P, the label of the program counter.
    pub counter: L,
    pub a: L,
    pub b: L,
    pub c: L,
}

impl<L: Label> Request<L> {
    /// A request of an operation that uses none of the three labels.
    #[inline]
    pub fn new(name: Name, counter: L) -> Self {
        Self {
            name,
            counter,
            a: L::bottom(),
            b: L::bottom(),
            c: L::bottom(),
        }
    }
}

/// The labels of what an allowed operation makes.
#[derive(Clone, Copy, PartialEq, Eq, Debug)]
pub struct Verdict<L> {
    /// N, the new label of the program counter.
    pub counter: L,
    /// R, the label of the result.
    pub result: L,
}

/// Answers requests: a verdict, or nothing if the operation is forbidden.
pub trait Policy<L> {
    fn ask(&mut self, request: &Request<L>) -> Option<Verdict<L>>;
}

/// The condition of store: address and program counter may flow to the cell.
#[inline]
fn may_store<L: Label>(request: &Request<L>) -> bool {
    request.a.join(request.counter).flows_to(request.c)
}

/// Works the published rows out.
#[derive(Clone, Copy, Default, Debug)]
pub struct Direct;

impl Direct {
    pub fn new() -> Self {
        Self
    }
}

impl<L: Label> Policy<L> for Direct {
    #[inline]
    fn ask(&mut self, request: &Request<L>) -> Option<Verdict<L>> {
        let Request {
            name,
            counter: p,
            a,
            b,
            ..
        } = *request;
        let (counter, result) = match name {
            Name::Push => (p, a),
            Name::Pop | Name::Noop => (p, L::bottom()),
            Name::Add | Name::Sub | Name::Less | Name::Load => (p, a.join(b)),
            Name::Store if !may_store(request) => return None,
            Name::Store => (p, a.join(b).join(p)),
            Name::Jump | Name::Bnz => (a.join(p), L::bottom()),
            Name::Call => (a.join(p), p),
            Name::Return => (a, b.join(p)),
            Name::Output => (p, a.join(p)),
        };
        Some(Verdict { counter, result })
    }
}

/// A set of the letters P, A, B and C; it means the join of their labels.
#[derive(Clone, Copy, PartialEq, Eq, Debug)]
pub struct Letters(u8);

impl Letters {
    pub const NONE: Self = Self(0);
    pub const P: Self = Self(1);
    pub const A: Self = Self(2);
    pub const B: Self = Self(4);
    pub const C: Self = Self(8);

    /// The letters of both sets.
    #[must_use]
    pub const fn and(self, other: Self) -> Self {
        Self(self.0 | other.0)
    }

    #[inline]
    fn has(self, other: Self) -> bool {
        self.0 & other.0 != 0
    }

    /// The join of the labels of these letters.
    #[inline]
    pub fn join<L: Label>(self, request: &Request<L>) -> L {
        let of = |letter, label| {
            if self.has(letter) { label } else { L::bottom() }
        };
        let left = of(Self::P, request.counter).join(of(Self::A, request.a));
        let right = of(Self::B, request.b).join(of(Self::C, request.c));
        left.join(right)
    }
}

/// A row of a table: the letters of N and those of R.
#[derive(Clone, Copy, PartialEq, Eq, Debug)]
pub struct Row {
    pub counter: Letters,
    pub result: Letters,
}

impl Row {
    const fn new(counter: Letters, result: Letters) -> Self {
        Self { counter, result }
    }
}

/// Reads thirteen rows of letter sets.
#[derive(Clone, Copy, PartialEq, Eq, Debug)]
pub struct RowTable {
    pub rows: [Row; Name::COUNT],
}

impl RowTable {
    /// The published rows, in the order of `Name::ALL`.
    pub const PUBLISHED: Self = {
        const NONE: Letters = Letters::NONE;
        const P: Letters = Letters::P;
        const A: Letters = Letters::A;
        const B: Letters = Letters::B;
        let nothing = Row::new(P, NONE);
        let both = Row::new(P, A.and(B));
        let jump = Row::new(A.and(P), NONE);
        Self {
            rows: [
                Row::new(P, A),               // push
                nothing,                      // pop
                nothing,                      // noop
                both,                         // add
                both,                         // sub
                both,                         // less
                both,                         // load
                Row::new(P, A.and(B).and(P)), // store
                jump,                         // jump
                jump,                         // bnz
                Row::new(A.and(P), P),        // call
                Row::new(A, B.and(P)),        // return
                Row::new(P, A.and(P)),        // output
            ],
        }
    };

    pub fn new() -> Self {
        Self::PUBLISHED
    }
}

impl Default for RowTable {
    fn default() -> Self {
        Self::new()
    }
}

impl<L: Label> Policy<L> for RowTable {
    #[inline]
    fn ask(&mut self, request: &Request<L>) -> Option<Verdict<L>> {
        if request.name == Name::Store && !may_store(request) {
            return None;
        }
        let row = self.rows[request.name as usize];
        Some(Verdict {
            counter: row.counter.join(request),
            result: row.result.join(request),
        })
    }
}

/// Remembers the last request and its answer over another policy.
#[derive(Clone, Copy, Debug)]
pub struct Cached<P, L> {
    below: P,
    remembered: Option<(Request<L>, Option<Verdict<L>>)>,
}

impl<P, L> Cached<P, L> {
    pub fn new(below: P) -> Self {
        Self {
            below,
            remembered: None,
        }
    }

    pub fn below(&self) -> &P {
        &self.below
    }
}

impl<P: Default, L> Default for Cached<P, L> {
    fn default() -> Self {
        Self::new(P::default())
    }
}

impl<P: Policy<L>, L: Label> Policy<L> for Cached<P, L> {
    #[inline]
    fn ask(&mut self, request: &Request<L>) -> Option<Verdict<L>> {
        if let Some((remembered, answer)) = self.remembered
            && remembered == *request
        {
            return answer;
        }
        let answer = self.below.ask(request);
        self.remembered = Some((*request, answer));
        answer
    }
}

#[cfg(test)]
mod tests {
    use super::*;
    use crate::labels::{Growers, Level};

    fn level(number: u8) -> Level {
        Level::new(number).unwrap()
    }

    fn request(name: Name, [counter, a, b, c]: [u8; 4]) -> Request<Level> {
        Request {
            name,
            counter: level(counter),
            a: level(a),
            b: level(b),
            c: level(c),
        }
    }

    fn answer(name: Name, labels: [u8; 4]) -> Option<(u8, u8)> {
        let verdict = Direct.ask(&request(name, labels))?;
        Some((verdict.counter.number(), verdict.result.number()))
    }

    #[test]
    fn published_rows() {
        // P = 1, A = 2, B = 3, C = 4
        let labels = [1, 2, 3, 4];
        for (name, expected) in [
            (Name::Push, (1, 2)),
            (Name::Pop, (1, 0)),
            (Name::Noop, (1, 0)),
            (Name::Add, (1, 3)),
            (Name::Sub, (1, 3)),
            (Name::Less, (1, 3)),
            (Name::Load, (1, 3)),
            (Name::Store, (1, 3)),
            (Name::Jump, (2, 0)),
            (Name::Bnz, (2, 0)),
            (Name::Call, (2, 1)),
            (Name::Return, (2, 3)),
            (Name::Output, (1, 2)),
        ] {
            assert_eq!(answer(name, labels), Some(expected), "{name:?}");
        }
        // P above the others
        assert_eq!(answer(Name::Push, [5, 1, 0, 0]), Some((5, 1)));
        assert_eq!(answer(Name::Store, [5, 1, 0, 6]), Some((5, 5)));
        assert_eq!(answer(Name::Call, [5, 1, 0, 0]), Some((5, 5)));
        assert_eq!(answer(Name::Return, [5, 1, 0, 0]), Some((1, 5)));
        assert_eq!(answer(Name::Output, [5, 1, 0, 0]), Some((5, 5)));
    }

    #[test]
    fn store_tests_address_and_counter() {
        assert_eq!(answer(Name::Store, [0, 1, 7, 1]), Some((0, 7)));
        assert_eq!(answer(Name::Store, [0, 2, 0, 1]), None);
        assert_eq!(answer(Name::Store, [2, 0, 0, 1]), None);
        // the example of stop 25: P = 1, 0@2, 8@0 over 4@1
        assert_eq!(answer(Name::Store, [1, 2, 0, 1]), None);
    }

    /// Every request over these labels.
    fn requests<L: Label>(labels: &[L]) -> Vec<Request<L>> {
        let mut all = Vec::new();
        for name in Name::ALL {
            for &counter in labels {
                for &a in labels {
                    for &b in labels {
                        for &c in labels {
                            all.push(Request {
                                name,
                                counter,
                                a,
                                b,
                                c,
                            });
                        }
                    }
                }
            }
        }
        all
    }

    fn all_policies_agree<L: Label>(labels: &[L]) {
        let mut table = RowTable::new();
        let mut cached = Cached::<RowTable, L>::default();
        let mut twice = Cached::<Cached<Direct, L>, L>::default();
        for request in requests(labels) {
            let expected = Direct.ask(&request);
            assert_eq!(table.ask(&request), expected);
            for _ in 0..2 {
                assert_eq!(cached.ask(&request), expected);
                assert_eq!(twice.ask(&request), expected);
            }
        }
    }

    #[test]
    fn policies_are_true_to_the_published_rows() {
        all_policies_agree(&[0, 1, 4, 7].map(level));
        all_policies_agree(&[0, 1, 2, 0xffff].map(Growers));
    }

    /// Counts how often it is asked, and answers something else each time.
    struct Counting(u16);

    impl Policy<Growers> for Counting {
        fn ask(&mut self, _: &Request<Growers>) -> Option<Verdict<Growers>> {
            self.0 += 1;
            Some(Verdict {
                counter: Growers(self.0),
                result: Growers(0),
            })
        }
    }

    #[test]
    fn cached_answers_only_the_remembered_request_from_memory() {
        let one = Request::new(Name::Push, Growers(0));
        let other = Request {
            c: Growers(1),
            ..one
        };
        let mut cached = Cached::new(Counting(0));
        let mut counter = |request| cached.ask(request).map(|verdict| verdict.counter.0);
        assert_eq!(counter(&one), Some(1));
        assert_eq!(counter(&one), Some(1));
        assert_eq!(counter(&other), Some(2));
        assert_eq!(counter(&one), Some(3));
        assert_eq!(cached.below().0, 3);
    }

    #[test]
    fn letters() {
        let request = request(Name::Noop, [1, 2, 3, 4]);
        assert_eq!(Letters::NONE.join(&request), level(0));
        assert_eq!(Letters::P.and(Letters::A).join(&request), level(2));
        assert_eq!(Letters::C.join(&request), level(4));
    }
}
