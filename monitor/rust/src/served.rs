//! What notices came to.

use crate::settings::Refusal;

/// What notices came to, and what the monitor has to do.
#[derive(Clone, Copy, Debug, Default, PartialEq, Eq)]
pub struct Served {
    /// Chains that were served.
    pub chains: u32,
    /// Bit `1 << kind`: interrupt for a used buffer of this queue.
    pub interrupts: u32,
    /// Why the last chain wasn't served, where one was refused.
    pub stopped: Option<Refusal>,
    /// Tell the driver of a change of configuration: the device needs a reset.
    pub configuration: bool,
    /// As much was served as a notice may, and more is available, of a chain or of the queue: call again, later.
    pub more: bool,
    /// A deflate is held now, which names this many pages ([`Balloon::give_deflate`](crate::Balloon::give_deflate) grants it).
    pub held: Option<u32>,
    /// Pages that inflates, deflates, reports and hints named.
    pub pages: u64,
    /// Of these, discarded.
    pub discarded: u64,
    /// Of these, pages whose large page wasn't given up whole yet ([`Monitor::page_size`](crate::Monitor::page_size)).
    pub waiting: u64,
    /// Numbers past the end or of reserved pages.
    pub skipped: u64,
    /// Pages of hints that came while no round was open: they aren't named.
    pub late: u64,
    /// Pages put into the set of ballooned pages, or taken out of it.
    pub marked: u64,
    /// Pages of requests that the set hasn't enough words for: it is as before them.
    pub unmarked: u64,
    /// Pages to discard that lie in no region.
    pub in_holes: u64,
    /// Pages that the machine failed to discard, those of a balloon that keeps its pages
    /// ([`Balloon::keeps_pages`](crate::Balloon::keeps_pages)), and those of reports that keep what is in them
    /// ([`Balloon::keeps_reports`](crate::Balloon::keeps_reports)), and of hints likewise, or where the settings don't discard them.
    pub kept: u64,
    /// Why it failed last: the system's number.
    pub error: Option<i32>,
}

impl Served {
    /// Whether the driver is to be told of a change of configuration: the device needs a reset.
    pub fn needs_configuration_notice(&self) -> bool {
        self.configuration
    }

    pub(crate) fn add(&mut self, other: &Served) {
        self.chains += other.chains;
        self.interrupts |= other.interrupts;
        self.configuration |= other.configuration;
        self.more |= other.more;
        self.held = other.held.or(self.held);
        self.pages += other.pages;
        self.discarded += other.discarded;
        self.waiting += other.waiting;
        self.skipped += other.skipped;
        self.late += other.late;
        self.marked += other.marked;
        self.unmarked += other.unmarked;
        self.in_holes += other.in_holes;
        self.kept += other.kept;
        self.error = other.error.or(self.error);
        if matches!(other.stopped, Some(Refusal::Broken(_) | Refusal::Unreachable)) {
            self.stopped = other.stopped;
        }
    }
}
