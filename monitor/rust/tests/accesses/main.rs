//! Each access that a notice makes, in order: over memory that writes down what is asked of it, and what its monitor is told.

mod watched;

use std::rc::Rc;
use std::sync::atomic::Ordering;
use vb_balloon::{features, Balloon, Kind, Settings};
use vm_memory::{Bytes, GuestAddress, GuestMemoryMmap};
use watched::{Access, Fenced, Log, Memory, Noting, Watched};

const TABLE: u64 = 0x10000;
const AVAIL: u64 = 0x11000;
const USED: u64 = 0x12000;
const BUFFER: u64 = 0x20000;
const SIZE: u64 = 4;
const FEATURES: u64 = features::VERSION_1 | features::FREE_PAGE_HINT | 0x27;

/// Guest memory, what was noted of it, and a device whose queues lie on three pages each.
struct Guest {
    memory: Memory,
    log: Log,
    balloon: Balloon,
}

fn place(kind: Kind, part: u64) -> u64 {
    part + 0x3000 * kind as u64
}

impl Guest {
    fn new() -> Guest {
        let log: Log = Rc::default();
        let ranges = [(GuestAddress(0), 2 << 20), (GuestAddress(4 << 20), 2 << 20)];
        let regions = ranges.map(|(start, length)| {
            let mapped: GuestMemoryMmap = GuestMemoryMmap::from_ranges(&[(start, length)]).expect("memory");
            let (_, region) = mapped.remove_region(start, length as u64).expect("a region");
            Watched { region, log: log.clone() }
        });
        let memory = Memory { regions: regions.into_iter().collect() };
        let settings = Settings { offered: FEATURES, skips_bad_pages: true, ..Settings::default() };
        let mut balloon = Balloon::new(&memory, settings).expect("settings");
        for status in [1, 3] {
            balloon.write_status(&memory, status, &mut ()).expect("a step");
        }
        balloon.negotiate(FEATURES).expect("features");
        balloon.write_status(&memory, 11, &mut ()).expect("a step");
        for number in 0..5 {
            let kind = balloon.kind(number).expect("a queue");
            let at = |part| place(kind, part);
            balloon.place(&memory, kind, at(TABLE), at(AVAIL), at(USED), SIZE as u16).expect("a place");
        }
        balloon.write_status(&memory, 15, &mut ()).expect("a step");
        log.borrow_mut().clear();
        Guest { memory, log, balloon }
    }

    fn put(&self, address: u64, bytes: &[u8]) {
        self.memory.write_slice(bytes, GuestAddress(address)).expect("memory");
    }

    /// Makes the chain of these descriptors available, from descriptor 0 on: address, length, flags.
    fn publish(&self, kind: Kind, chain: &[(u64, u32, u16)]) {
        for (number, &(address, length, flags)) in chain.iter().enumerate() {
            let at = place(kind, TABLE) + 16 * number as u64;
            self.put(at, &address.to_le_bytes());
            self.put(at + 8, &length.to_le_bytes());
            self.put(at + 12, &flags.to_le_bytes());
            self.put(at + 14, &(number as u16 + 1).to_le_bytes());
        }
        self.put(place(kind, AVAIL), &[0, 0, 1, 0, 0, 0]);
        self.log.borrow_mut().clear();
    }

    /// What a notice of the kind's queue does.
    fn notified(&mut self, kind: Kind) -> Vec<Access> {
        let mut monitor = Noting(self.log.clone());
        let memory = Fenced(&self.memory, self.log.clone());
        let served = self.balloon.notify(&memory, kind, &mut monitor);
        assert_eq!(served.chains, 1, "{:?}", served);
        let accesses = self.log.borrow().clone();
        accesses
    }
}

/// The index, after a fence the entry, and the descriptors of a chain, in this order: the first alone, and where it names another,
/// all from that one on to the table's end.
fn taken(kind: Kind, descriptors: u64) -> Vec<Access> {
    let at = |part| place(kind, part);
    let mut accesses = vec![Access::Load(at(AVAIL) + 2), Access::Fence(Ordering::Acquire), Access::Load(at(AVAIL) + 4)];
    accesses.push(Access::Read(at(TABLE), 16));
    if descriptors > 1 {
        accesses.push(Access::Read(at(TABLE) + 16, 16 * (SIZE as usize - 1)));
    }
    accesses
}

/// The used element's two words, and after a fence its index.
fn given_back(kind: Kind) -> Vec<Access> {
    let at = |part| place(kind, part);
    vec![
        Access::Store(at(USED) + 4, vec![0; 4]),
        Access::Store(at(USED) + 8, vec![0; 4]),
        Access::Fence(Ordering::Release),
        Access::Store(at(USED) + 2, vec![1, 0]),
    ]
}

/// After a fence the driver's flags: the index isn't read again.
fn ended(kind: Kind) -> Vec<Access> {
    vec![Access::Fence(Ordering::SeqCst), Access::Load(place(kind, AVAIL))]
}

fn words(pages: &[u32]) -> Vec<u8> {
    pages.iter().flat_map(|it| it.to_le_bytes()).collect()
}

/// Two pieces, whose pages lie in both regions, in a row and alone; one lies in the hole.
#[test]
fn an_inflate_is_read_once_told_discarded_and_given_back() {
    let mut guest = Guest::new();
    guest.put(BUFFER, &words(&[300, 301, 1030]));
    guest.put(BUFFER + 0x100, &words(&[700, 1029]));
    guest.publish(Kind::Inflate, &[(BUFFER, 12, 1), (BUFFER + 0x100, 8, 0)]);
    let told = vec![(300, 2), (1030, 1), (700, 1), (1029, 1)];
    let mut expected = taken(Kind::Inflate, 2);
    expected.extend([Access::Read(BUFFER, 12), Access::Read(BUFFER + 0x100, 8)]);
    expected.push(Access::Told(Kind::Inflate, told));
    for (page, length) in [(300, 8192), (1030, 4096), (1029, 4096)] {
        expected.push(Access::Discard(page * 4096, length));
    }
    expected.extend(given_back(Kind::Inflate));
    expected.extend(ended(Kind::Inflate));
    assert_eq!(guest.notified(Kind::Inflate), expected);
}

#[test]
fn a_deflate_discards_nothing() {
    let mut guest = Guest::new();
    guest.put(BUFFER, &words(&[300]));
    guest.publish(Kind::Deflate, &[(BUFFER, 4, 0)]);
    let mut expected = taken(Kind::Deflate, 1);
    expected.extend([Access::Read(BUFFER, 4), Access::Told(Kind::Deflate, vec![(300, 1)])]);
    expected.extend(given_back(Kind::Deflate));
    expected.extend(ended(Kind::Deflate));
    assert_eq!(guest.notified(Kind::Deflate), expected);
}

#[test]
fn a_report_is_told_and_discarded_before_it_is_given_back() {
    let mut guest = Guest::new();
    guest.publish(Kind::Report, &[(400 * 4096, 8192, 3), (1040 * 4096, 4096, 2)]);
    let mut expected = taken(Kind::Report, 2);
    expected.push(Access::Told(Kind::Report, vec![(400, 2), (1040, 1)]));
    expected.extend([Access::Discard(400 * 4096, 8192), Access::Discard(1040 * 4096, 4096)]);
    expected.extend(given_back(Kind::Report));
    expected.extend(ended(Kind::Report));
    assert_eq!(guest.notified(Kind::Report), expected);
}

#[test]
fn an_id_of_hints_is_read_once_and_told() {
    let mut guest = Guest::new();
    let id = guest.balloon.begin_hints().expect("a round");
    guest.put(BUFFER, &id.to_le_bytes());
    guest.publish(Kind::Hint, &[(BUFFER, 4, 0)]);
    let mut expected = taken(Kind::Hint, 1);
    expected.extend([Access::Read(BUFFER, 4), Access::Id(2)]);
    expected.extend(given_back(Kind::Hint));
    expected.extend(ended(Kind::Hint));
    assert_eq!(guest.notified(Kind::Hint), expected);
    assert!(guest.balloon.hints_open());
}

/// Hints that come before their round's id are given back, and nothing is told of them.
#[test]
fn late_hints_are_given_back_alone() {
    let mut guest = Guest::new();
    assert_eq!(guest.balloon.begin_hints(), Ok(2));
    guest.publish(Kind::Hint, &[(400 * 4096, 8192, 2)]);
    let mut expected = taken(Kind::Hint, 1);
    expected.extend(given_back(Kind::Hint));
    expected.extend(ended(Kind::Hint));
    assert_eq!(guest.notified(Kind::Hint), expected);
}

#[test]
fn statistics_are_read_once_and_kept() {
    let mut guest = Guest::new();
    guest.put(BUFFER, &[4, 0, 1, 0, 0, 0, 0, 0, 0, 0]);
    guest.publish(Kind::Statistics, &[(BUFFER, 10, 0)]);
    let mut expected = taken(Kind::Statistics, 1);
    expected.extend([Access::Read(BUFFER, 10), Access::Figures(1)]);
    assert_eq!(guest.notified(Kind::Statistics), expected);
    guest.log.borrow_mut().clear();
    guest.balloon.ask_statistics(&Fenced(&guest.memory, guest.log.clone()));
    let mut expected = given_back(Kind::Statistics);
    expected.extend(ended(Kind::Statistics));
    assert_eq!(*guest.log.borrow(), expected);
}
