//! A memory of a monitor's own, of which one access fails.

use crate::guest::{settings, Guest};
use std::cell::Cell;
use std::error::Error;
use std::io;
use vb_balloon::{Balloon, Cut, Denied, Kind, LiveMemory, Refusal, Region, Settings, Spot, StateError};
use vb_balloon::{Together, Unreachable};
use vm_memory::GuestMemoryMmap;

/// The access of this number fails.
struct Failing<'a> {
    memory: &'a GuestMemoryMmap,
    number: u32,
    made: Cell<u32>,
}

impl Failing<'_> {
    fn count(&self) -> Result<(), Unreachable> {
        let made = self.made.replace(self.made.get() + 1);
        if made == self.number {
            Err(Unreachable)
        } else {
            Ok(())
        }
    }
}

impl LiveMemory for Failing<'_> {
    fn regions(&self, out: &mut Vec<Region>) {
        self.memory.regions(out);
    }

    fn word(&self, at: Spot) -> Result<u16, Unreachable> {
        self.count().and_then(|()| self.memory.word(at))
    }

    fn copy(&self, at: Spot, to: &mut [u8]) -> Result<(), Unreachable> {
        self.count().and_then(|()| self.memory.copy(at, to))
    }

    fn write_number(&self, at: Spot, number: u32) -> Result<(), Unreachable> {
        self.count().and_then(|()| self.memory.write_number(at, number))
    }

    fn write_word(&self, at: Spot, word: u16) -> Result<(), Unreachable> {
        self.count().and_then(|()| self.memory.write_word(at, word))
    }

    fn discard(&self, cut: &Cut) -> io::Result<()> {
        self.memory.discard(cut)
    }

    /// It says that it has discarded more than there was.
    fn discard_together(&self, cuts: &[Cut]) -> Together {
        Together { asked: cuts.len(), discarded: cuts.len() + 1 }
    }
}

/// What a notice of one request comes to where the access of this number fails: why it stopped, how many accesses were
/// made, and the used index.
fn notified(number: u32) -> (Option<Refusal>, u32, u8) {
    let mut guest = Guest::new();
    let mut balloon = guest.ready(settings());
    guest.name(Kind::Inflate, &[600]);
    let memory = Failing { memory: &guest.memory, number, made: Cell::new(0) };
    let served = balloon.notify(&memory, Kind::Inflate, &mut ());
    (served.stopped, memory.made.get(), guest.used_index(Kind::Inflate))
}

/// Whichever access fails ends the notice, by name: none is made after it, and the used index isn't published before its
/// element.
#[test]
fn an_access_that_fails_ends_its_notice() {
    let (stopped, made, used) = notified(u32::MAX);
    assert_eq!((stopped, used), (None, 1));
    // At least: both indexes, an entry, a descriptor, its numbers, the two words of the element, and the flags.
    assert!(made >= 8);
    let ended: Vec<_> = (0..made).map(notified).collect();
    for (number, (stopped, made, _)) in ended.iter().enumerate() {
        assert_eq!((*stopped, *made), (Some(Refusal::Unreachable), number as u32 + 1));
    }
    let published = ended.iter().filter(|(_, _, used)| *used == 1).count();
    assert_eq!(published, 1); // the flags are read last
}

/// At DRIVER_OK one queue's failure is told beside what the others come to.
#[test]
fn a_failure_at_driver_ok_is_told() {
    let mut guest = Guest::new();
    let mut balloon = guest.prepared(settings());
    guest.name(Kind::Deflate, &[600]);
    let memory = Failing { memory: &guest.memory, number: 0, made: Cell::new(0) };
    let all = balloon.write_status(&memory, 15, &mut ()).expect("a step");
    assert_eq!((all.stopped, all.chains, guest.used_index(Kind::Deflate)), (Some(Refusal::Unreachable), 1, 1));
}

/// A memory that says that it discarded more parts than it was handed has just those counted.
#[test]
fn a_memory_that_says_too_much_ends_nobody() {
    let mut guest = Guest::new();
    let mut balloon = guest.ready(settings());
    guest.name(Kind::Inflate, &[600, 610]);
    let memory = Failing { memory: &guest.memory, number: u32::MAX, made: Cell::new(0) };
    let served = balloon.notify(&memory, Kind::Inflate, &mut ());
    assert_eq!((served.stopped, served.pages, served.discarded, served.in_holes), (None, 2, 2, 0));
}

/// Each refusal is an error of the standard library, and so `?` hands it on where any of these is.
#[test]
fn refusals_are_errors_with_words() {
    fn begin(offered: u64, status: u8, bytes: &[u8]) -> Result<(), Box<dyn Error + Send + Sync>> {
        let guest = Guest::new();
        let mut balloon = Balloon::new(&guest.memory, Settings { offered, ..settings() })?;
        balloon.write_status(&guest.memory, status, &mut ())?;
        Balloon::restore_bytes(&guest.memory, bytes)?;
        Err(Unreachable)?
    }
    let said = |offered, status, bytes| begin(offered, status, bytes).unwrap_err().to_string();
    let offered = settings().offered;
    let saved = Balloon::new(&Guest::new().memory, settings()).unwrap().state().to_bytes().unwrap();
    assert_eq!(said(1 << 63, 1, &saved), "an argument is out of its range");
    assert_eq!(said(offered, 2, &saved), "the status or the features come out of order");
    assert_eq!(said(offered, 1, &[]), "a saved state has another length");
    assert_eq!(said(offered, 1, &saved), "an access to guest memory failed");
    assert_eq!(Refusal::Broken(9).to_string(), "the guest's bytes break rule 9");
    assert_eq!(Denied(5).to_string(), "VERSION_1 is missing");
    assert_eq!(StateError::BadSum.to_string(), "the saved state is damaged");
}
