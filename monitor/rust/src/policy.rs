//! Which guest of a host is asked for how much, which one is pressed, and how much all may hold on a
//! machine with other work: the calls of vb_policy.h. All numbers count pages unless it is said, and
//! any may be passed.
//!
//! What a host knows of a guest are [`Figures`], all of which have their meaning in the header; of
//! these and of a [`Budget`] the [`Tiers`] follow, and a [`Decision`] over all guests.

use crate::raw::*;

pub use crate::raw::{Counter, Figures, Machine, PolicyBudget as Budget, Pressure, Sample, Tiers};

/// Milliseconds for which a guest is pressed from a sample on that shows that it stalled, and that it
/// killed a process.
pub use crate::raw::{KILLED_MS, PRESSED_MS};

/// Whether a guest's word on its memory is at hand, as `contact` of [`Figures`] has it.
#[derive(Clone, Copy, Debug, PartialEq, Eq)]
pub enum Contact {
    /// Its driver isn't ready.
    Starts = CONTACT_STARTS as isize,
    /// Its statistics are too old.
    Silent = CONTACT_SILENT as isize,
    /// Its statistics are recent.
    Heard = CONTACT_HEARD as isize,
    /// It has gone, and its memory isn't freed yet.
    Away = CONTACT_AWAY as isize,
}

/// Up to which tier guests give.
#[derive(Clone, Copy, Debug, PartialEq, Eq, PartialOrd, Ord)]
pub enum Tier {
    /// Nothing is missing.
    None,
    /// Memory that they use for nothing.
    Unused,
    /// Page cache beside their reserves.
    Cache,
    /// Their reserves: all above the floor.
    Reserve,
    /// All that they can give isn't enough.
    Short,
}

impl Tier {
    fn of(number: u32) -> Tier {
        match number {
            TIER_NONE => Tier::None,
            TIER_UNUSED => Tier::Unused,
            TIER_CACHE => Tier::Cache,
            TIER_RESERVE => Tier::Reserve,
            _ => Tier::Short,
        }
    }
}

/// What is decided: the target of each guest, in their order.
#[derive(Clone, Debug, PartialEq, Eq)]
pub struct Decision {
    pub tier: Tier,
    /// The pages that stay missing; 0 unless the guests are short.
    pub missing: u64,
    pub targets: Vec<u32>,
}

impl Budget {
    /// What a guest counts for, and what it can give up to and with each tier.
    pub fn tiers(&self, figures: &Figures) -> Tiers {
        // SAFETY: the pointers are of `&`.
        unsafe { vb_policy_tiers(self, figures) }
    }

    /// What a guest that waits takes in the end beyond what is lent to it, as its statistics say.
    pub fn wants(&self, figures: &Figures) -> u32 {
        // SAFETY: the pointers are of `&`.
        unsafe { vb_policy_wants(self, figures) }
    }

    /// The target of each guest, so that what they count for beside that is no more than the frames.
    pub fn decide(&self, guests: &[Figures]) -> Decision {
        let mut rooms = vec![PolicyRoom::default(); guests.len()];
        let mut targets = vec![0; guests.len()];
        // SAFETY: the pointers are of a `&`, and of slices with their lengths.
        let decided = unsafe {
            vb_policy_decide(
                self,
                guests.as_ptr(),
                guests.len(),
                rooms.as_mut_ptr(),
                rooms.len(),
                targets.as_mut_ptr(),
                targets.len(),
            )
        };
        Decision { tier: Tier::of(decided.tier), missing: decided.missing, targets }
    }
}

impl Counter {
    /// A counter that a guest reports.
    pub fn of(value: u64) -> Counter {
        Counter { value, present: 1 }
    }
}

impl Pressure {
    /// What is remembered of a guest with one more sample, taken at `now`, in milliseconds.
    /// [`Pressure::default`] is a guest of which none was taken.
    #[must_use]
    pub fn after(&self, sample: &Sample, now: u64) -> Pressure {
        // SAFETY: the pointers are of `&`.
        unsafe { vb_policy_press(self, sample, now) }
    }

    /// Whether the guest is pressed at `now`: its own work waits for memory.
    pub fn is_pressed(&self, now: u64) -> bool {
        // SAFETY: the pointer is of a `&`.
        unsafe { vb_policy_pressed(self, now) != 0 }
    }
}

impl Machine {
    /// The budget from now on of guests on this machine, which has other work, too: it falls at once
    /// to what leaves enough available, and rises by a step at once, within its bounds.
    #[must_use]
    pub fn budget_after(&self) -> u32 {
        // SAFETY: the pointer is of a `&`.
        unsafe { vb_policy_budget(self) }
    }
}
