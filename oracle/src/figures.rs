//! Counts of what the plans reached.

#![forbid(unsafe_code)]

use crate::kinds::Kind;
use crate::machine::{Stop, Watch};
use crate::plan::{
    Comparison, KINDS, Outcome, POLICIES, Plan, Reply, Report, call, end, looks, reply, report,
    state,
};
use crate::policy::Name;
use crate::station::Part;
use std::collections::BTreeSet;
use std::fmt;

/// What one plan reached while its rounds ran.
#[derive(Clone, Debug, Default)]
pub struct Reached {
    done: [bool; Name::COUNT],
    forbidden: [bool; Name::COUNT],
    /// The most entries of the stack that were in use.
    pub deepest: usize,
}

impl Watch for Reached {
    fn done(&mut self, name: Name, depth: usize) {
        self.done[name as usize] = true;
        self.deepest = self.deepest.max(depth);
    }

    fn forbidden(&mut self, name: Name) {
        self.forbidden[name as usize] = true;
    }
}

/// A thing that a plan or a comparison may reach, in the order of the table.
#[derive(Clone, Copy, PartialEq, Eq, PartialOrd, Ord, Debug)]
enum Row {
    Kind(u32),
    Policy(u32),
    End(u32),
    Done(usize),
    Forbidden(usize),
    Finished,
    OutOfFuel,
    Stopped(u32),
    MakingRefused(u32),
    OtherLength(u32),
    OutsideMemory,
    AboveClearance,
    /// By the state's code.
    NotTaken(u32),
    /// By the call's code, and whether the station was shut.
    CallNotTaken(u32, bool),
    Reply(u32),
    Compared(Finding),
}

/// What a comparison may find.
#[derive(Clone, Copy, PartialEq, Eq, PartialOrd, Ord, Debug)]
enum Finding {
    AlikeLooksSame,
    AlikeLooksNotDue,
    AlikeAndNotTheSame,
    ProgramsDiffer,
    MemoriesDiffer,
    CallsDiffer,
    CommandsDiffer,
    LooksSame,
    LooksDiffer,
    FirstRefused,
    SecondRefused,
    CodesNothing,
}

const FINDINGS: [Finding; 12] = [
    Finding::AlikeLooksSame,
    Finding::AlikeLooksNotDue,
    Finding::AlikeAndNotTheSame,
    Finding::ProgramsDiffer,
    Finding::MemoriesDiffer,
    Finding::CallsDiffer,
    Finding::CommandsDiffer,
    Finding::LooksSame,
    Finding::LooksDiffer,
    Finding::FirstRefused,
    Finding::SecondRefused,
    Finding::CodesNothing,
];

impl Row {
    /// Every row of the table.
    fn all() -> Vec<Self> {
        let mut rows = Vec::new();
        rows.extend((0..KINDS).map(Self::Kind));
        rows.extend((0..POLICIES).map(Self::Policy));
        rows.extend([end::RUN, end::REFUSED, end::CODES_NOTHING].map(Self::End));
        rows.extend((0..Name::COUNT).map(Self::Done));
        // The published rows forbid nothing but stores.
        rows.push(Self::Forbidden(Name::Store as usize));
        rows.extend([Self::Finished, Self::OutOfFuel]);
        rows.extend(Stop::ALL.map(|stop| Self::Stopped(stop.number())));
        rows.extend(Part::ALL.map(|part| Self::MakingRefused(part.number())));
        rows.extend(Part::ALL.map(|part| Self::OtherLength(part.number())));
        rows.extend([Self::OutsideMemory, Self::AboveClearance]);
        rows.extend([state::IDLE, state::RUNNING].map(Self::NotTaken));
        rows.extend(Stop::ALL.map(|stop| Self::NotTaken(stop.number())));
        rows.extend((call::ENTER..=call::GO).map(|code| Self::CallNotTaken(code, false)));
        rows.extend((call::ENTER..=call::GO).map(|code| Self::CallNotTaken(code, true)));
        rows.extend((reply::ENTERED..=reply::NOT_MADE).map(Self::Reply));
        rows.extend(FINDINGS.map(Self::Compared));
        rows
    }
}

impl fmt::Display for Row {
    fn fmt(&self, formatter: &mut fmt::Formatter<'_>) -> fmt::Result {
        let operation = |index: usize| format!("{:?}", Name::ALL[index]).to_lowercase();
        let part = |number: u32| Part::ALL[number as usize - 1].name();
        let call = |code: u32| ["enter", "look", "start", "go", "next command"][code as usize];
        let text = match *self {
            Self::Kind(kind) => format!("kind {kind}: {}", Kind::of(kind).name()),
            Self::Policy(policy) => format!("policy {policy}"),
            Self::End(end::RUN) => "made and run".to_owned(),
            Self::End(end::REFUSED) => "not made".to_owned(),
            Self::End(_) => "a number codes nothing".to_owned(),
            Self::Done(index) => format!("{} done", operation(index)),
            Self::Forbidden(index) => format!("{} forbidden", operation(index)),
            Self::Finished => "round finished".to_owned(),
            Self::OutOfFuel => "round without fuel".to_owned(),
            Self::Stopped(stop) => format!("stopped with {stop}"),
            Self::MakingRefused(number) => format!("refused with 1, {}", part(number)),
            Self::OtherLength(number) => format!("refused with 2, {}", part(number)),
            Self::OutsideMemory => "refused with 3".to_owned(),
            Self::AboveClearance => "refused with 4".to_owned(),
            Self::NotTaken(state::IDLE) => "not taken while idle".to_owned(),
            Self::NotTaken(state::RUNNING) => "not taken while running".to_owned(),
            Self::NotTaken(stop) => format!("not taken, shut with {stop}"),
            Self::CallNotTaken(code, true) => format!("{} not taken, shut", call(code)),
            Self::CallNotTaken(code, false) => format!("{} not taken, not shut", call(code)),
            Self::Reply(code) => format!("reply {code}"),
            Self::Compared(finding) => format!("compared: {}", finding.text()),
        };
        formatter.pad(&text)
    }
}

impl Finding {
    fn text(self) -> &'static str {
        match self {
            Self::AlikeLooksSame => "alike, looks the same",
            Self::AlikeLooksNotDue => "alike, looks not due",
            Self::AlikeAndNotTheSame => "alike, but not the same plans",
            Self::ProgramsDiffer => "programs differ",
            Self::MemoriesDiffer => "memories differ",
            Self::CallsDiffer => "calls differ",
            Self::CommandsDiffer => "commands differ",
            Self::LooksSame => "looks the same",
            Self::LooksDiffer => "looks differ",
            Self::FirstRefused => "first not made",
            Self::SecondRefused => "second not made",
            Self::CodesNothing => "a number codes nothing",
        }
    }
}

/// The figures of all plans and comparisons so far.
#[derive(Clone, Debug)]
pub struct Figures {
    pub plans: u64,
    pub calls: u64,
    pub steps: u64,
    pub comparisons: u64,
    /// Comparisons of alike stations, whose commands and looks must not differ.
    pub laws: u64,
    rows: Vec<(Row, u64)>,
}

impl Default for Figures {
    fn default() -> Self {
        let mut rows: Vec<_> = Row::all().into_iter().map(|row| (row, 0)).collect();
        rows.sort_unstable();
        Self {
            plans: 0,
            calls: 0,
            steps: 0,
            comparisons: 0,
            laws: 0,
            rows,
        }
    }
}

impl Figures {
    /// The least count of all rows.
    pub fn least(&self) -> u64 {
        self.rows.iter().map(|&(_, count)| count).min().unwrap_or(0)
    }

    fn count(&mut self, reached: &BTreeSet<Row>) {
        for row in reached {
            if let Ok(place) = self.rows.binary_search_by_key(row, |&(row, _)| row) {
                self.rows[place].1 += 1;
            }
        }
    }

    /// Counts a plan by what the reference engine made of it.
    pub fn count_plan(&mut self, plan: &Plan, outcome: &Outcome, reached: &Reached) {
        self.plans += 1;
        self.calls += plan.calls.len() as u64;
        self.steps += outcome.steps();
        let end = outcome.end;
        let mut rows = BTreeSet::from([
            Row::Kind(plan.kind),
            Row::Policy(plan.policy),
            Row::End(end.code),
        ]);
        if end.code == end::REFUSED {
            rows.insert(Row::MakingRefused(end.part));
        }
        for index in 0..Name::COUNT {
            if reached.done[index] {
                rows.insert(Row::Done(index));
            }
            if reached.forbidden[index] {
                rows.insert(Row::Forbidden(index));
            }
        }
        if end.code == end::RUN {
            for (call, reply) in plan.calls.iter().zip(&outcome.replies) {
                rows.insert(Row::Reply(reply.code));
                rows.extend(row_of_reply(call.code, reply));
            }
        }
        self.count(&rows);
    }

    /// Counts a comparison by what the reference engine found.
    pub fn count_comparison(&mut self, comparison: &Comparison, report: &Report) {
        self.comparisons += 1;
        self.laws += u64::from(report.alike());
        let rows = findings(comparison, report).into_iter().map(Row::Compared);
        self.count(&rows.collect());
    }
}

/// What a reply tells besides its code.
fn row_of_reply(call: u32, reply: &Reply) -> Vec<Row> {
    match reply.code {
        reply::GONE => vec![match reply.state {
            state::IDLE => Row::Finished,
            state::RUNNING => Row::OutOfFuel,
            stop => Row::Stopped(stop),
        }],
        reply::REFUSED => vec![match reply.refusal {
            2 => Row::OtherLength(reply.part),
            3 => Row::OutsideMemory,
            _ => Row::AboveClearance,
        }],
        reply::NOT_TAKEN => {
            let shut = reply.state > state::RUNNING;
            vec![Row::NotTaken(reply.state), Row::CallNotTaken(call, shut)]
        }
        _ => Vec::new(),
    }
}

fn findings(comparison: &Comparison, report: &Report) -> Vec<Finding> {
    match report.code {
        report::COMPARED => {}
        report::FIRST_REFUSED => return vec![Finding::FirstRefused],
        report::SECOND_REFUSED => return vec![Finding::SecondRefused],
        _ => return vec![Finding::CodesNothing],
    }
    let alike = report.alike();
    let same = report.looks == looks::SAME;
    let not_due = report.looks == looks::NOT_DUE;
    let findings = [
        (Finding::AlikeLooksSame, alike && same),
        (Finding::AlikeLooksNotDue, alike && not_due),
        (
            Finding::AlikeAndNotTheSame,
            alike && comparison.first != comparison.second,
        ),
        (Finding::ProgramsDiffer, report.programs != -1),
        (Finding::MemoriesDiffer, report.memories != -1),
        (Finding::CallsDiffer, report.calls != -1),
        (Finding::CommandsDiffer, report.commands != -1),
        (Finding::LooksSame, same),
        (Finding::LooksDiffer, report.looks == looks::DIFFERENT),
    ];
    let found = findings.into_iter().filter(|&(_, found)| found);
    found.map(|(finding, _)| finding).collect()
}

impl fmt::Display for Figures {
    fn fmt(&self, formatter: &mut fmt::Formatter<'_>) -> fmt::Result {
        let half = self.rows.len().div_ceil(2);
        let (left, right) = self.rows.split_at(half);
        for (place, (row, count)) in left.iter().enumerate() {
            write!(formatter, "{row:<40}{count:>9}")?;
            if let Some((row, count)) = right.get(place) {
                write!(formatter, "    {row:<40}{count:>9}")?;
            }
            writeln!(formatter)?;
        }
        writeln!(
            formatter,
            "alike stations whose commands and looks must not differ: {}",
            self.laws
        )
    }
}

#[cfg(test)]
mod tests {
    use super::*;

    #[test]
    fn rows_are_counted_once_a_plan() {
        let mut figures = Figures::default();
        let reply = Reply {
            code: reply::NOT_TAKEN,
            state: 25,
            ..Reply::default()
        };
        let plan = Plan {
            calls: vec![Default::default(); 2],
            ..Plan::default()
        };
        let outcome = Outcome {
            replies: vec![reply; 2],
            ..Outcome::default()
        };
        figures.count_plan(&plan, &outcome, &Reached::default());
        let count = |wanted| {
            figures
                .rows
                .iter()
                .find(|(row, _)| *row == wanted)
                .unwrap()
                .1
        };
        assert_eq!(count(Row::NotTaken(25)), 1);
        assert_eq!(count(Row::CallNotTaken(call::ENTER, true)), 1);
        assert_eq!(count(Row::Reply(reply::NOT_TAKEN)), 1);
        assert_eq!(figures.least(), 0);
        assert_eq!((figures.plans, figures.calls), (1, 2));
    }
}
