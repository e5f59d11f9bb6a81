//! A host's lender as one step: the calls of vb_host.h over a list of seats. A guest is its place in
//! the list; [`Seat::default`] is a place without a guest. Any numbers may be passed.
//!
//! After each step a guest's limit by the kernel is to be [`Seat::lent`]. Its process is to be sent
//! its target where [`Seat::due_target`] says so of its last report, and the grant of its deflate
//! where [`Seat::due_grant`] does and its limit in force is at least what is lent.

use crate::raw::*;

pub use crate::raw::{Aim, Exchange, Look, Message, Pace, Reading, Report, Seat, Stand};

/// In which line a deflate waits, as `line` of a [`Report`] has it. Those of an earlier line come
/// before all of a later one.
#[derive(Clone, Copy, Debug, PartialEq, Eq)]
pub enum Line {
    Deflates = LINE_DEFLATES as isize,
    /// Of a guest that boots again.
    Resets = LINE_RESETS as isize,
    /// Of newcomers, and of memory that is added.
    Arrivals = LINE_ARRIVALS as isize,
}

/// What a guest's process asks for, as `waits` of a [`Message`] and `ask` of an [`Exchange`] have it.
#[derive(Clone, Copy, Debug, PartialEq, Eq)]
pub enum Ask {
    Nothing = ASK_NOTHING as isize,
    /// For memory that its guest comes with, or that is added.
    Room = ASK_ROOM as isize,
    /// All that is in its balloon.
    Reset = ASK_RESET as isize,
    Deflate = ASK_DEFLATE as isize,
}

/// What a guest's process holds back until that is granted, as `holds` of a [`Message`] has it.
#[derive(Clone, Copy, Debug, PartialEq, Eq)]
pub enum Hold {
    /// Its guest isn't strict.
    Nothing = HOLDS_NOTHING as isize,
    Deflates = HOLDS_DEFLATES as isize,
    /// And its guest may start without some of its pages.
    MayStartSmall = MAY_START_SMALL as isize,
    /// And it has: its driver hasn't put those pages into the balloon yet.
    HasStartedSmall = HAS_STARTED_SMALL as isize,
}

/// What may happen to a lender. Where there is no seat at a place, or the event isn't possible, it
/// has no effect.
#[derive(Clone, Copy, Debug, PartialEq, Eq)]
pub enum Event {
    /// A guest's process has reported.
    Hears { guest: usize, report: Report },
    /// A guest's deflate is granted, where that lends nothing more, or it is the first that waits
    /// and there is room.
    Grants { guest: usize },
    /// The deflate of the guest that waits first is granted from the overdraft, where all others
    /// wait or have in their balloons what their targets say.
    Overdraws { guest: usize },
    /// These pages of a guest are wanted in its balloon.
    Wants { guest: usize, pages: u32 },
    /// A guest has the target that is possible.
    Targets { guest: usize },
    /// Another guest is at a place, with all its pages in its balloon, `ballooned` of which are
    /// wanted there; of no pages: the guest has gone.
    Arrives { guest: usize, pages: u32, ballooned: u32 },
    /// The memory at the place `added`, all of which is lent, joins a guest.
    Joins { guest: usize, added: usize },
    /// A guest of these pages sends its first report to a later lender.
    TakesOver { guest: usize, pages: u32, report: Report },
    /// A guest takes pages without a grant: all are lent to it, until another one is at its place.
    Uncounts { guest: usize },
    /// The budget from now on.
    Budget { frames: u32 },
    /// Of all guests just this one comes before all others of its line from now on.
    Prefers { guest: usize },
    /// A guest that waits in a reset or to come lets others pass: as long as this wait lasts, it is
    /// in the last line, after all that wait there now.
    Defers { guest: usize },
}

impl Event {
    /// The event of a kind at a place.
    fn at(kind: u32, guest: usize) -> HostEvent {
        HostEvent { kind, guest, ..HostEvent::default() }
    }

    fn plain(self) -> HostEvent {
        match self {
            Event::Hears { guest, report } => HostEvent { report, ..Event::at(HEARS, guest) },
            Event::Grants { guest } => Event::at(GRANTS, guest),
            Event::Overdraws { guest } => Event::at(OVERDRAWS, guest),
            Event::Wants { guest, pages } => HostEvent { pages, ..Event::at(WANTS, guest) },
            Event::Targets { guest } => Event::at(TARGETS, guest),
            Event::Arrives { guest, pages, ballooned } => HostEvent { pages, ballooned, ..Event::at(ARRIVES, guest) },
            Event::Joins { guest, added } => HostEvent { added, ..Event::at(JOINS, guest) },
            Event::TakesOver { guest, pages, report } => HostEvent { pages, report, ..Event::at(TAKES_OVER, guest) },
            Event::Uncounts { guest } => Event::at(UNCOUNTS, guest),
            Event::Budget { frames } => HostEvent { frames, ..Event::at(BUDGET, 0) },
            Event::Prefers { guest } => Event::at(PREFERS, guest),
            Event::Defers { guest } => Event::at(DEFERS, guest),
        }
    }
}

impl Seat {
    /// How many frames are lent to it: its limit.
    pub fn lent(&self) -> u64 {
        // SAFETY: the pointer is of a `&`.
        unsafe { vb_seat_lent(self) }
    }

    /// How many more a grant of its deflate would lend.
    pub fn asked(&self) -> u32 {
        // SAFETY: the pointer is of a `&`.
        unsafe { vb_seat_asked(self) }
    }

    /// Whether a deflate of it waits.
    pub fn waits(&self) -> bool {
        // SAFETY: the pointer is of a `&`.
        unsafe { vb_seat_waits(self) != 0 }
    }

    /// Whether its process, of which this is the last report, hasn't received its last target.
    pub fn due_target(&self, report: &Report) -> bool {
        // SAFETY: the pointers are of `&`.
        unsafe { vb_seat_due_target(self, report) != 0 }
    }

    /// Whether its process, of which this is the last report, holds a deflate that was granted.
    pub fn due_grant(&self, report: &Report) -> bool {
        // SAFETY: the pointers are of `&`.
        unsafe { vb_seat_due_grant(self, report) != 0 }
    }

    /// What a message of its process says at this time, in milliseconds: the report that
    /// [`Event::Hears`] takes, and numbers of pages.
    pub fn read(&self, exchange: &Exchange, message: &Message, now: u64) -> Reading {
        // SAFETY: the pointers are of `&`.
        unsafe { vb_seat_read(self, exchange, message, now) }
    }

    /// The report by which [`Event::TakesOver`] follows a guest that isn't strict, with these pages
    /// of its memory and this target.
    pub fn follow(&self, message: &Message, pages: u32, target: u32) -> Report {
        // SAFETY: the pointers are of `&`.
        unsafe { vb_seat_follow(self, message, pages, target) }
    }

    /// How its target follows what was decided.
    pub fn pace(&self, aim: &Aim) -> Pace {
        // SAFETY: the pointers are of `&`.
        unsafe { vb_seat_pace(self, aim) }
    }

    /// The exchange once that message is noted; to be noted before the message is read.
    pub fn note(&self, exchange: &Exchange, message: &Message, now: u64) -> Exchange {
        // SAFETY: the pointers are of `&`.
        unsafe { vb_seat_note(self, exchange, message, now) }
    }
}

/// A lender: a budget, an overdraft, and what is known of each guest.
#[derive(Clone, Debug, Default, PartialEq, Eq)]
pub struct Lender {
    host: Host,
    seats: Vec<Seat>,
}

impl Lender {
    /// A lender of these frames, and beyond them of an overdraft, with no place yet.
    pub fn new(frames: u32, overdraft: u32) -> Lender {
        Lender { host: Host { frames, overdraft }, seats: Vec::new() }
    }

    /// Adds a place without a guest, and says which one.
    pub fn add_place(&mut self) -> usize {
        self.seats.push(Seat::default());
        self.seats.len() - 1
    }

    /// One step: the event; then grants until none is possible; then the target of each guest.
    pub fn step(&mut self, event: Event) {
        let plain = event.plain();
        // SAFETY: the pointers are of `&mut` and `&`, and of a slice with its length.
        unsafe { vb_host_step(&mut self.host, self.seats.as_mut_ptr(), self.seats.len(), &plain) };
    }

    /// An event alone, with no grant and no target after it: where many events happen at once, all
    /// but the last one.
    pub fn happen(&mut self, event: Event) {
        let plain = event.plain();
        // SAFETY: the pointers are of `&mut` and `&`, and of a slice with its length.
        unsafe { vb_host_happen(&mut self.host, self.seats.as_mut_ptr(), self.seats.len(), &plain) };
    }

    /// What is known of each guest.
    pub fn seats(&self) -> &[Seat] {
        &self.seats
    }

    /// The budget.
    pub fn frames(&self) -> u32 {
        self.host.frames
    }

    /// How many frames are lent to all guests together.
    pub fn owed(&self) -> u64 {
        // SAFETY: the pointer is of a slice with its length.
        unsafe { vb_host_owed(self.seats.as_ptr(), self.seats.len()) }
    }

    /// The least budget with which all that wait proceed, once those that don't wait have in their
    /// balloons what is wanted there, and their drivers have read that: with one page less somebody
    /// still waits.
    pub fn least_budget(&self) -> u64 {
        // SAFETY: the pointer is of a slice with its length.
        unsafe { vb_host_least_budget(self.seats.as_ptr(), self.seats.len()) }
    }

    /// How many frames of the budget are neither lent nor waited for.
    pub fn room(&self) -> u32 {
        // SAFETY: the pointers are of a `&`, and of a slice with its length.
        unsafe { vb_host_room(&self.host, self.seats.as_ptr(), self.seats.len()) }
    }

    /// The guest that waits first.
    pub fn first(&self) -> Option<usize> {
        // SAFETY: the pointer is of a slice with its length.
        let place = unsafe { vb_host_first(self.seats.as_ptr(), self.seats.len()) };
        (place < self.seats.len()).then_some(place)
    }

    /// Since when the host stands still, by what was noted at the look before, and the time in
    /// milliseconds.
    pub fn stand(&self, stand: &Stand, now: u64) -> Stand {
        // SAFETY: the pointers are of a slice with its length, and of a `&`.
        unsafe { vb_host_stand(self.seats.as_ptr(), self.seats.len(), stand, now) }
    }

    /// The event by which the host is helped then: to be followed by [`Lender::step`], and
    /// by another look at once. None where none is due.
    pub fn relief(&self, stand: &Stand, look: &Look) -> Option<Event> {
        // SAFETY: the pointers are of `&`, and of a slice with its length.
        let relief = unsafe { vb_host_relief(&self.host, self.seats.as_ptr(), self.seats.len(), stand, look) };
        let guest = relief.guest;
        match relief.kind {
            OVERDRAWS => Some(Event::Overdraws { guest }),
            PREFERS => Some(Event::Prefers { guest }),
            DEFERS => Some(Event::Defers { guest }),
            _ => None,
        }
    }
}
