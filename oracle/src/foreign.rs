//! Runs plans on the engine under test, through its two C functions.
//!
//! This is the only module with unsafe code.
#![allow(unsafe_code)]

use crate::plan::{
    Call, Comparison, End, Engine, Entry, Number, Operation, Outcome, Plan, Reply, Report,
};

unsafe extern "C" {
    fn senggubat_run(
        kind: u32,
        policy: u32,
        program: *const Operation,
        program_length: usize,
        memory: *mut Number,
        memory_length: usize,
        stack: *mut Entry,
        stack_length: usize,
        log: *mut Number,
        log_length: usize,
        calls: *const Call,
        calls_length: usize,
        replies: *mut Reply,
        replies_length: usize,
        end: *mut End,
    );

    fn senggubat_compare(
        kind: u32,
        policy: u32,
        level: u32,
        stack: usize,
        log: usize,
        program: *const Operation,
        program_length: usize,
        memory: *const Number,
        memory_length: usize,
        calls: *const Call,
        calls_length: usize,
        other_program: *const Operation,
        other_program_length: usize,
        other_memory: *const Number,
        other_memory_length: usize,
        other_calls: *const Call,
        other_calls_length: usize,
        report: *mut Report,
    );
}

/// The engine under test.
#[derive(Clone, Copy, Default, Debug)]
pub struct Foreign;

impl Engine for Foreign {
    fn run_on(&mut self, plan: &Plan, outcome: &mut Outcome) {
        // SAFETY: every pointer and length is that of a live slice of a type laid out as the boundary says, what is
        // written is borrowed mutably, and no two of the slices that are written overlap.
        unsafe {
            senggubat_run(
                plan.kind,
                plan.policy,
                plan.program.as_ptr(),
                plan.program.len(),
                outcome.memory.as_mut_ptr(),
                outcome.memory.len(),
                outcome.stack.as_mut_ptr(),
                outcome.stack.len(),
                outcome.log.as_mut_ptr(),
                outcome.log.len(),
                plan.calls.as_ptr(),
                plan.calls.len(),
                outcome.replies.as_mut_ptr(),
                outcome.replies.len(),
                &raw mut outcome.end,
            );
        }
    }

    fn compare(&mut self, comparison: &Comparison) -> Report {
        let mut report = Report::default();
        let (first, second) = (&comparison.first, &comparison.second);
        // SAFETY: as above; nothing but the report is written.
        unsafe {
            senggubat_compare(
                comparison.kind,
                comparison.policy,
                comparison.level,
                comparison.stack,
                comparison.log,
                first.program.as_ptr(),
                first.program.len(),
                first.memory.as_ptr(),
                first.memory.len(),
                first.calls.as_ptr(),
                first.calls.len(),
                second.program.as_ptr(),
                second.program.len(),
                second.memory.as_ptr(),
                second.memory.len(),
                second.calls.as_ptr(),
                second.calls.len(),
                &raw mut report,
            );
        }
        report
    }
}
