//! What the calls answer, as balloon.h has it.

use std::os::raw::c_int;
use vb_balloon::{Refusal, Served, StateError};

pub const OK: u32 = 0;
pub const NOTHING: u32 = 1;
pub const NO_QUEUE: u32 = 5;
pub const BAD_LENGTH: u32 = 9;

/// `struct balloon_result`.
#[repr(C)]
pub struct Outcome {
    code: u32,
    rule: u32,
    chains: u32,
    interrupts: u32,
    configuration: bool,
    more: bool,
    held: bool,
    held_pages: u32,
    pages: u64,
    discarded: u64,
    waiting: u64,
    skipped: u64,
    late: u64,
    marked: u64,
    unmarked: u64,
    in_holes: u64,
    kept: u64,
    error: c_int,
}

/// The code and the rule of a refusal.
pub fn codes(why: Refusal) -> (u32, u32) {
    match why {
        Refusal::Broken(rule) => (2, rule),
        Refusal::NotReady => (3, 0),
        Refusal::NeedsReset => (4, 0),
        Refusal::NoQueue => (NO_QUEUE, 0),
        Refusal::Misplaced => (6, 0),
        Refusal::BadArgument => (7, 0),
        Refusal::Stale => (14, 0),
        Refusal::Unreachable => (u32::MAX, 0),
    }
}

pub fn code_of(answer: Result<(), Refusal>) -> u32 {
    answer.map_or_else(|why| codes(why).0, |()| OK)
}

pub fn state_code(why: StateError) -> u32 {
    match why {
        StateError::BadLength => BAD_LENGTH,
        StateError::NotAState => 10,
        StateError::OtherVersion => 11,
        StateError::BadSum => 12,
        StateError::Impossible => 13,
        StateError::Misplaced => 6,
    }
}

impl Outcome {
    pub fn of(served: &Served) -> Outcome {
        let pauses = served.more && served.pages + served.skipped > 0;
        let served_code = if served.chains > 0 || served.held.is_some() || pauses { OK } else { NOTHING };
        let (code, rule) = served.stopped.map_or((served_code, 0), codes);
        Outcome {
            code,
            rule,
            chains: served.chains,
            interrupts: served.interrupts,
            configuration: served.configuration,
            more: served.more,
            held: served.held.is_some(),
            held_pages: served.held.unwrap_or(0),
            pages: served.pages,
            discarded: served.discarded,
            waiting: served.waiting,
            skipped: served.skipped,
            late: served.late,
            marked: served.marked,
            unmarked: served.unmarked,
            in_holes: served.in_holes,
            kept: served.kept,
            error: served.error.unwrap_or(0),
        }
    }
}
