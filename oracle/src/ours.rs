//! Runs plans on the reference engine.

#![forbid(unsafe_code)]

mod coding;

use crate::labels::{Growers, Label, Level, Pair};
use crate::machine::{Ending, Unwatched, Watch};
use crate::observer::{self, Counted};
use crate::plan::{
    Comparison, End, Engine, Outcome, Plan, Reply, Report, Side, end, looks, reply, report, state,
};
use crate::policy::{Cached, Direct, Policy, RowTable};
use crate::station::{CallName, Denial, Lengths, OwnedParts, Part, Refusal, State, Station};
pub use coding::Code;
use coding::{Action, Call};

/// The reference engine.
#[derive(Clone, Copy, Default, Debug)]
pub struct Ours;

impl Engine for Ours {
    fn run_on(&mut self, plan: &Plan, outcome: &mut Outcome) {
        run_watched(plan, outcome, &mut Unwatched);
    }

    fn compare(&mut self, comparison: &Comparison) -> Report {
        let job = Compare { comparison };
        dispatch(comparison.kind, comparison.policy, job)
            .flatten()
            .unwrap_or(Report {
                code: report::CODES_NOTHING,
                ..Report::default()
            })
    }
}

/// Runs a plan while something watches the rounds.
pub fn run_watched<W: Watch>(plan: &Plan, outcome: &mut Outcome, watch: &mut W) {
    let (kind, policy) = (plan.kind, plan.policy);
    let job = Run {
        plan,
        outcome: &mut *outcome,
        watch,
    };
    let end = dispatch(kind, policy, job).flatten();
    outcome.end = end.unwrap_or(CODES_NOTHING);
}

/// Runs a plan with another policy than the one that it names, and with a kind of label that it must name.
pub fn run_with<L: Code, P: Policy<L> + Default>(plan: &Plan, outcome: &mut Outcome) {
    let job = Run {
        plan,
        outcome: &mut *outcome,
        watch: &mut Unwatched,
    };
    let end = job.with::<L, P>();
    outcome.end = end.unwrap_or(CODES_NOTHING);
}

/// Compares stations with another policy than the one that the comparison names, and with a kind of label that it must
/// name.
pub fn compare_with<L: Code, P: Policy<L> + Default>(comparison: &Comparison) -> Option<Report> {
    Compare { comparison }.with::<L, P>()
}

const CODES_NOTHING: End = End {
    code: end::CODES_NOTHING,
    place: 0,
    refusal: 0,
    part: 0,
    state: 0,
    label: 0,
    depth: 0,
    commands: 0,
};

/// Something to be done with a kind of label and a policy.
trait Job {
    type Output;

    fn with<L: Code, P: Policy<L> + Default>(self) -> Self::Output;
}

/// Does a job with the kind and the policy of these numbers, if they code one.
fn dispatch<J: Job>(kind: u32, policy: u32, job: J) -> Option<J::Output> {
    match kind {
        0 => with_policy::<Level, J>(policy, job),
        1 => with_policy::<Growers, J>(policy, job),
        2 => with_policy::<Pair<Level, Level>, J>(policy, job),
        3 => with_policy::<Pair<Level, Growers>, J>(policy, job),
        4 => with_policy::<Pair<Growers, Level>, J>(policy, job),
        5 => with_policy::<Pair<Growers, Growers>, J>(policy, job),
        _ => None,
    }
}

fn with_policy<L: Code, J: Job>(policy: u32, job: J) -> Option<J::Output> {
    Some(match policy {
        0 => job.with::<L, Direct>(),
        1 => job.with::<L, RowTable>(),
        2 => job.with::<L, Cached<RowTable, L>>(),
        3 => job.with::<L, Cached<Cached<Direct, L>, L>>(),
        _ => return None,
    })
}

/// The run of a plan.
struct Run<'a, W> {
    plan: &'a Plan,
    outcome: &'a mut Outcome,
    watch: &'a mut W,
}

impl<W: Watch> Job for Run<'_, W> {
    type Output = Option<End>;

    fn with<L: Code, P: Policy<L> + Default>(self) -> Option<End> {
        let Self {
            plan,
            outcome,
            watch,
        } = self;
        if outcome.replies.len() != plan.calls.len() {
            return None;
        }
        let calls = coding::calls::<L>(&plan.calls)?;
        let parts = OwnedParts {
            program: coding::program(&plan.program)?,
            memory: coding::numbers(&outcome.memory)?,
            stack: coding::stack(&outcome.stack)?,
            log: coding::numbers(&outcome.log)?,
        };
        let mut installed = match Installed::<L, P>::make(parts) {
            Ok(installed) => installed,
            Err(refusal) => return Some(making_refused(refusal)),
        };
        for (call, reply) in calls.iter().zip(&mut outcome.replies) {
            *reply = installed.reply_to(call, watch);
        }
        coding::write_numbers(&installed.parts.memory, &mut outcome.memory);
        coding::write_stack(&installed.parts.stack, &mut outcome.stack);
        coding::write_numbers(&installed.parts.log, &mut outcome.log);
        Some(installed.end())
    }
}

fn making_refused(refusal: Refusal) -> End {
    End {
        code: end::REFUSED,
        refusal: refusal.number(),
        part: part_number(refusal),
        ..End::default()
    }
}

fn part_number(refusal: Refusal) -> u32 {
    refusal.part().map_or(0, Part::number)
}

/// A station with its parts and a policy.
struct Installed<L, P> {
    station: Station<L>,
    parts: OwnedParts<L>,
    policy: P,
}

impl<L: Code, P: Policy<L> + Default> Installed<L, P> {
    fn make(mut parts: OwnedParts<L>) -> Result<Self, Refusal> {
        Ok(Self {
            station: Station::make(parts.lend().lengths())?,
            parts,
            policy: P::default(),
        })
    }

    /// Makes a call, unless it is one that would be made on others' parts, and codes the reply.
    fn reply_to<W: Watch>(&mut self, call: &Call<L>, watch: &mut W) -> Reply {
        let Some(others) = call.others else {
            return self.answer(call.action, watch);
        };
        let name = call.action.name();
        if !self.station.takes(name) {
            return self.not_taken();
        }
        if self.fits(name, others) {
            return coded(reply::NOT_MADE);
        }
        let own = std::mem::replace(&mut self.parts, OwnedParts::blank(others));
        let reply = self.answer(call.action, watch);
        self.parts = own;
        reply
    }

    /// Whether others' parts of these lengths would do for a call.
    fn fits(&self, name: CallName, others: Lengths) -> bool {
        let own = self.station.lengths();
        let fits = |&part: &Part| others.of(part) == own.of(part);
        name.parts().iter().all(fits)
    }

    fn answer<W: Watch>(&mut self, action: Action<L>, watch: &mut W) -> Reply {
        let answer = match action {
            Action::Enter { cell, number } => self.enter(cell, number),
            Action::Look { cell, clearance } => self.look(cell, clearance),
            Action::Start => self.station.start().map(|()| coded(reply::STARTED)),
            Action::Go { fuel } => self.go(fuel, watch),
            Action::NextCommand { from, clearance } => self.next_command(from, clearance),
        };
        match answer {
            Ok(reply) => reply,
            Err(Denial::NotTaken) => self.not_taken(),
            Err(Denial::Refused(refusal)) => Reply {
                refusal: refusal.number(),
                part: part_number(refusal),
                ..coded(reply::REFUSED)
            },
        }
    }

    fn enter(&mut self, cell: u64, number: crate::machine::Number<L>) -> Result<Reply, Denial> {
        self.station.enter(&mut self.parts.memory, cell, number)?;
        Ok(coded(reply::ENTERED))
    }

    fn look(&self, cell: u64, clearance: L) -> Result<Reply, Denial> {
        let number = self.station.look(&self.parts.memory, cell, clearance)?;
        Ok(Reply {
            number: number.value.into(),
            label: number.label.encode(),
            ..coded(reply::SHOWN)
        })
    }

    fn go<W: Watch>(&mut self, fuel: u32, watch: &mut W) -> Result<Reply, Denial> {
        let gone = self
            .station
            .go(self.parts.lend(), &mut self.policy, fuel, watch)?;
        let (state, place) = self.coded_state();
        Ok(Reply {
            steps: gone.steps,
            state,
            number: if matches!(gone.ending, Ending::Stopped(_)) {
                place
            } else {
                0
            },
            ..coded(reply::GONE)
        })
    }

    fn next_command(&self, from: u64, clearance: L) -> Result<Reply, Denial> {
        let found = self
            .station
            .next_command(&self.parts.log, from, clearance)?;
        Ok(match found {
            None => coded(reply::NONE_LEFT),
            Some(place) => Reply {
                place: place as u64,
                ..coded(reply::FOUND)
            },
        })
    }

    fn not_taken(&self) -> Reply {
        let (state, number) = self.coded_state();
        Reply {
            state,
            number,
            ..coded(reply::NOT_TAKEN)
        }
    }

    /// The code of the state, and the place of the stop if there is one.
    fn coded_state(&self) -> (u32, i64) {
        match self.station.state() {
            State::Idle => (state::IDLE, 0),
            State::Running(_) => (state::RUNNING, 0),
            State::Shut { stop, place } => (stop.number(), place),
        }
    }

    fn end(&self) -> End {
        let (state, stopped_at) = self.coded_state();
        let commands = self.station.commands() as u64;
        let (place, label, depth) = match self.station.state() {
            State::Running(round) => (round.place, round.label, round.depth),
            _ => (stopped_at, L::bottom(), 0),
        };
        End {
            place,
            code: end::RUN,
            state,
            label: label.encode(),
            depth: depth as u64,
            commands,
            ..End::default()
        }
    }

    /// The commands in the log.
    fn commands(&self) -> &[crate::machine::Number<L>] {
        &self.parts.log[..self.station.commands()]
    }

    fn idle(&self) -> bool {
        self.station.state() == State::Idle
    }
}

/// A reply of that code with nothing in it yet.
fn coded(code: u32) -> Reply {
    Reply {
        code,
        ..Reply::default()
    }
}

/// The comparison of two stations.
struct Compare<'a> {
    comparison: &'a Comparison,
}

/// A side of a comparison in terms of the reference engine.
struct Decoded<L> {
    parts: OwnedParts<L>,
    calls: Vec<Call<L>>,
}

impl Compare<'_> {
    fn decode<L: Code>(&self, side: &Side) -> Option<Decoded<L>> {
        let program = coding::program(&side.program)?;
        let memory = coding::numbers(&side.memory)?;
        let blank = OwnedParts::blank(Lengths {
            program: program.len(),
            memory: memory.len(),
            stack: self.comparison.stack,
            log: self.comparison.log,
        });
        Some(Decoded {
            parts: OwnedParts {
                program,
                memory,
                ..blank
            },
            calls: coding::calls(&side.calls)?,
        })
    }
}

impl Job for Compare<'_> {
    type Output = Option<Report>;

    fn with<L: Code, P: Policy<L> + Default>(self) -> Option<Report> {
        let level = L::decode(self.comparison.level)?;
        let first = self.decode::<L>(&self.comparison.first)?;
        let second = self.decode::<L>(&self.comparison.second)?;
        let alike = |x: &_, y: &_| observer::operations_alike(x, y, level);
        let programs = observer::first_unlike(&first.parts.program, &second.parts.program, alike);
        let alike = |x: &_, y: &_| observer::numbers_alike(x, y, level);
        let memories = observer::first_unlike(&first.parts.memory, &second.parts.memory, alike);
        let (mut first, first_calls) = match run_side::<L, P>(first) {
            Ok(run) => run,
            Err(refusal) => return Some(side_refused(report::FIRST_REFUSED, refusal)),
        };
        let (mut second, second_calls) = match run_side::<L, P>(second) {
            Ok(run) => run,
            Err(refusal) => return Some(side_refused(report::SECOND_REFUSED, refusal)),
        };
        let alike = |x: &_, y: &_| observer::calls_alike(x, y, level);
        let calls = observer::first_difference(&first_calls, &second_calls, alike);
        let commands = observer::first_difference(
            &observer::visible(first.commands(), level),
            &observer::visible(second.commands(), level),
            |x, y| x == y,
        );
        let due = first_calls.len() == second_calls.len() && first.idle() && second.idle();
        let cell = if due {
            first_look_apart(&mut first, &mut second, level)
        } else {
            None
        };
        Some(Report {
            programs: place(programs),
            memories: place(memories),
            calls: place(calls),
            commands: place(commands),
            cell: place(cell),
            looks: match (due, cell) {
                (false, _) => looks::NOT_DUE,
                (true, None) => looks::SAME,
                (true, Some(_)) => looks::DIFFERENT,
            },
            ..Report::default()
        })
    }
}

fn side_refused(code: u32, refusal: Refusal) -> Report {
    Report {
        code,
        refusal: refusal.number(),
        part: part_number(refusal),
        ..Report::default()
    }
}

/// A place, or -1 for nowhere.
fn place(found: Option<usize>) -> i64 {
    found.map_or(-1, |place| place as i64)
}

type SideRun<L, P> = (Installed<L, P>, Vec<Counted<L>>);

/// Makes a station and the calls on it; answers it and the calls that count.
fn run_side<L: Code, P: Policy<L> + Default>(side: Decoded<L>) -> Result<SideRun<L, P>, Refusal> {
    let mut installed = Installed::<L, P>::make(side.parts)?;
    let mut counted = Vec::new();
    for call in &side.calls {
        let reply = installed.reply_to(call, &mut Unwatched);
        counted.extend(counts(call.action, &reply));
    }
    Ok((installed, counted))
}

/// The call as it counts, if it was made.
fn counts<L: Label>(action: Action<L>, reply: &Reply) -> Option<Counted<L>> {
    let outside_memory = (reply.code, reply.refusal) == (reply::REFUSED, 3);
    match action {
        Action::Enter { cell, number } if reply.code == reply::ENTERED || outside_memory => {
            Some(Counted::Enter { cell, number })
        }
        Action::Start if reply.code == reply::STARTED => Some(Counted::Start),
        _ => None,
    }
}

/// The first cell at which looks at both stations are answered otherwise.
fn first_look_apart<L: Code, P: Policy<L> + Default>(
    first: &mut Installed<L, P>,
    second: &mut Installed<L, P>,
    level: L,
) -> Option<usize> {
    let cells = first.parts.memory.len().max(second.parts.memory.len());
    (0..cells).find(|&cell| {
        let action = Action::Look {
            cell: cell as u64,
            clearance: level,
        };
        first.answer(action, &mut Unwatched) != second.answer(action, &mut Unwatched)
    })
}

#[cfg(test)]
mod tests;
