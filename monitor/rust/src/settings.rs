//! What a device is made with, what its queues are for, and why calls are refused.

use crate::raw;

/// Feature bits (VIRTIO 1.1, 5.5.3 and 6); Linux names bit 5 VIRTIO_BALLOON_F_REPORTING.
pub mod features {
    pub const MUST_TELL_HOST: u64 = 1;
    pub const STATS_VQ: u64 = 2;
    pub const DEFLATE_ON_OOM: u64 = 4;
    /// The driver hints which pages are free, in rounds that the host begins (VIRTIO 1.2, 5.5.3).
    pub const FREE_PAGE_HINT: u64 = 8;
    /// The driver says in `poison_val` what its free pages hold (VIRTIO 1.2, 5.5.3).
    pub const PAGE_POISON: u64 = 16;
    pub const REPORTING: u64 = 32;
    pub const VERSION_1: u64 = 1 << 32;
}

/// What a queue is for.
#[derive(Clone, Copy, Debug, PartialEq, Eq)]
pub enum Kind {
    Inflate = raw::INFLATE as isize,
    Deflate = raw::DEFLATE as isize,
    Statistics = raw::STATISTICS as isize,
    Report = raw::REPORT as isize,
    Hint = raw::HINT as isize,
}

impl Kind {
    /// All of them.
    pub const ALL: [Kind; 5] = [Kind::Inflate, Kind::Deflate, Kind::Statistics, Kind::Report, Kind::Hint];

    /// What the queue of this number is for, with these features: queues are numbered without gaps.
    pub fn of_number(features: u64, number: u32) -> Option<Kind> {
        Kind::of(raw::kind_of(features, number))
    }

    /// The kind of this number of vb.h.
    pub(crate) fn of(number: u32) -> Option<Kind> {
        Kind::ALL.get(number as usize).copied()
    }
}

/// What a device is made with, as `VbSettings` of vb.h.
#[derive(Clone, Copy, Debug, Default)]
pub struct Settings {
    /// Where guest memory ends, in bytes; 0: with its last region.
    pub memory_end: u64,
    pub offered: u64,
    pub reserved_pages: u32,
    pub needs_must_tell: bool,
    pub skips_bad_pages: bool,
    /// A deflate waits until it is granted ([`Balloon::give_deflate`](crate::Balloon::give_deflate)); ask for
    /// `needs_must_tell` with it.
    pub holds_deflates: bool,
    /// Pages that are hinted are discarded once they were told, with what the driver wrote to them since; else they are
    /// kept. A driver may write to one before its round ends, as Linux does where its memory runs out.
    pub discards_hints: bool,
}

/// Why a call is refused.
#[derive(Clone, Copy, Debug, PartialEq, Eq)]
pub enum Refusal {
    /// The guest's bytes break this rule of vb.h; tell the driver of a change of configuration.
    Broken(u32),
    NotReady,
    NeedsReset,
    NoQueue,
    Misplaced,
    BadArgument,
    /// Amid the notice its device was reset, or its queue moved: no hook can, as the balloon is borrowed.
    Stale,
    /// A `GuestMemory` of the monitor's own failed. The notice wasn't carried out to its end: have the driver reset.
    Unreachable,
}

/// Why a write of the status or of features is refused: the number of vb.h.
#[derive(Clone, Copy, Debug, PartialEq, Eq)]
pub struct Denied(pub u32);

pub(crate) fn refusal(code: u32, rule: u32) -> Refusal {
    match code {
        raw::BROKEN => Refusal::Broken(rule),
        raw::NOT_READY => Refusal::NotReady,
        raw::NEEDS_RESET => Refusal::NeedsReset,
        raw::NO_QUEUE => Refusal::NoQueue,
        raw::MISPLACED => Refusal::Misplaced,
        raw::STALE => Refusal::Stale,
        _ => Refusal::BadArgument,
    }
}
