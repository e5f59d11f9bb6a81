//! Memory that is remapped, and large pages and the set that they go by.

use crate::guest::{buffer, file_of, settings, Guest};
use std::io;
use std::os::unix::fs::FileExt;
use std::sync::Arc;
use vb_balloon::{Balloon, Cut, Kind, LiveMemory, Monitor, Refusal, Settings, Together};
use vm_memory::{Bytes, FileOffset, GuestAddress, GuestMemory, GuestMemoryMmap, GuestRegionMmap, MmapRegion};

/// A machine of pages of 2 MiB: what is discarded is whole ones.
#[derive(Default)]
struct Larges(Vec<Cut>);

impl Monitor for Larges {
    fn page_size(&self, region: usize) -> u64 {
        [2 << 20, 0][region]
    }

    fn discard(&mut self, memory: &dyn LiveMemory, cut: &Cut) -> io::Result<()> {
        self.0.push(*cut);
        memory.discard(cut)
    }
}

#[test]
fn a_large_page_goes_once_it_is_given_up() {
    let mut guest = Guest::new();
    let mut balloon = guest.ready(settings());
    balloon.ballooned = vec![0; balloon.words_of_set()];
    let mut larges = Larges::default();
    let mut notify = |guest: &mut Guest, pages: &[u32]| {
        guest.name(Kind::Inflate, pages);
        let served = balloon.notify(&guest.memory, Kind::Inflate, &mut larges);
        assert_eq!((served.stopped, served.in_holes, served.kept), (None, 0, 0));
        (served.discarded, served.waiting, larges.0.clone())
    };
    guest.put(2 << 20, &[7; 4096]);
    let pages: Vec<u32> = (512..1024).collect();
    assert_eq!(notify(&mut guest, &pages[..256]), (0, 256, vec![]));
    assert_eq!(notify(&mut guest, &pages[256..511]), (0, 255, vec![]));
    assert_eq!(guest.byte(2 << 20), 7);
    let large = Cut { region: 0, offset: 2 << 20, in_file: 2 << 20, length: 2 << 20 };
    let small = Cut { region: 1, offset: 904 << 12, in_file: 904 << 12, length: 4096 };
    assert_eq!(notify(&mut guest, &[1023, 5000]), (2, 0, vec![large, small]));
    assert_eq!(guest.byte(2 << 20), 0);
}

/// A machine that keeps each page.
#[derive(Default)]
struct Keeping(Vec<u64>);

impl Monitor for Keeping {
    fn discard(&mut self, _: &dyn LiveMemory, cut: &Cut) -> io::Result<()> {
        self.0.push(cut.offset >> 12);
        Err(io::ErrorKind::Unsupported.into())
    }
}

#[test]
fn a_discard_of_the_monitors_own_has_each_part_of_private_memory() {
    let mut guest = Guest::new();
    let mut balloon = guest.ready(settings());
    guest.memory = GuestMemoryMmap::from_ranges(&[(GuestAddress(0), 8 << 20)]).expect("memory");
    assert_eq!(balloon.set_memory(&guest.memory), Ok(()));
    guest.name(Kind::Inflate, &[700, 710, 720]);
    let mut keeping = Keeping::default();
    let served = balloon.notify(&guest.memory, Kind::Inflate, &mut keeping);
    assert_eq!((served.discarded, served.kept, keeping.0), (0, 3, vec![700, 710, 720]));
}

#[test]
fn memory_may_be_mapped_anew() {
    let mut guest = Guest::new();
    let mut balloon = guest.ready(Settings { skips_bad_pages: true, ..settings() });
    let far: GuestMemoryMmap = GuestMemoryMmap::from_ranges(&[(GuestAddress((1 << 44) - 4096), 4096)]).expect("memory");
    assert_eq!(balloon.set_memory(&far), Err(Refusal::BadArgument));
    let low: GuestMemoryMmap = GuestMemoryMmap::from_ranges(&[(GuestAddress(0), 8 << 20)]).expect("memory");
    guest.memory = low;
    assert_eq!(balloon.set_memory(&guest.memory), Ok(()));
    guest.name(Kind::Inflate, &[2047, 2048]);
    let served = balloon.notify(&guest.memory, Kind::Inflate, &mut ());
    assert_eq!((served.discarded, served.skipped, served.in_holes), (1, 1, 0));
}

/// Regions are those of the memory at hand, though its end is the same: a page of the hole becomes one of a region.
#[test]
fn a_hole_may_be_filled() {
    let mut guest = Guest::new();
    let mut balloon = guest.ready(settings());
    let hole = (9 << 20) / 4096;
    guest.name(Kind::Inflate, &[hole]);
    let served = balloon.notify(&guest.memory, Kind::Inflate, &mut ());
    assert_eq!((served.pages, served.discarded, served.in_holes), (1, 0, 1));
    let mapped = MmapRegion::new(4 << 20).expect("memory");
    let region = GuestRegionMmap::new(mapped, GuestAddress(8 << 20)).expect("a region");
    guest.memory = guest.memory.insert_region(Arc::new(region)).expect("it was a hole");
    guest.name(Kind::Inflate, &[hole]);
    let served = balloon.notify(&guest.memory, Kind::Inflate, &mut ());
    assert_eq!((served.pages, served.discarded, served.in_holes), (1, 1, 0));
}

/// A question for statistics goes over the regions of the memory at hand, whose numbers have changed.
#[test]
fn statistics_are_asked_over_the_memory_at_hand() {
    let (mut guest, file, cut) = (Guest::new(), file_of(8 << 20), 0x10000);
    let part = |at: u64, length: u64| {
        let its = FileOffset::new(file.try_clone().expect("a file"), at);
        (GuestAddress(at), length as usize, Some(its))
    };
    guest.memory = GuestMemoryMmap::from_ranges_with_files([part(0, 8 << 20)]).expect("memory");
    let mut balloon = guest.ready(settings());
    guest.describe(Kind::Statistics, 0, buffer(Kind::Statistics), 10, 0, 0);
    guest.publish(Kind::Statistics, 0);
    assert_eq!(balloon.notify(&guest.memory, Kind::Statistics, &mut ()).chains, 1);
    let parts = [part(0, cut), part(cut, (8 << 20) - cut)];
    guest.memory = GuestMemoryMmap::from_ranges_with_files(parts).expect("memory");
    let served = balloon.ask_statistics(&guest.memory);
    assert_eq!((served.stopped, served.chains, guest.used_index(Kind::Statistics)), (None, 1, 1));
}

/// The set has a word for each 64 pages of memory, and for those left; a page beyond 65,536 is another one than those below.
#[test]
fn the_set_has_a_bit_for_each_page() {
    for (pages, words) in [(2, 1), (64, 1), (65, 2), (128, 2), (129, 3)] {
        let memory = GuestMemoryMmap::<()>::from_ranges(&[(GuestAddress(0), pages << 12)]).expect("memory");
        let mut balloon = Balloon::new(&memory, settings()).expect("a balloon");
        assert_eq!(balloon.words_of_set(), words);
        balloon.ballooned = vec![0; 1025];
        balloon.ballooned[1024] = 1;
        assert!(balloon.is_ballooned(1 << 16) && !balloon.is_ballooned(0));
    }
}

/// The set of ballooned pages, where there is one: for all of memory, and empty after a reset.
#[test]
fn the_set_is_kept() {
    let mut guest = Guest::new();
    let mut balloon = guest.ready(settings());
    guest.name(Kind::Inflate, &[600, 601, 600]);
    assert_eq!((balloon.notify(&guest.memory, Kind::Inflate, &mut ()).marked, balloon.count_ballooned()), (0, 0));
    assert_eq!(balloon.words_of_set(), 96);
    balloon.ballooned = vec![0; 96];
    guest.name(Kind::Inflate, &[600, 601, 600]);
    let served = balloon.notify(&guest.memory, Kind::Inflate, &mut ());
    assert_eq!((served.marked, served.unmarked, balloon.count_ballooned()), (2, 0, 2));
    guest.name(Kind::Deflate, &[600]);
    assert_eq!(balloon.notify(&guest.memory, Kind::Deflate, &mut ()).marked, 1);
    assert!(!balloon.is_ballooned(600) && balloon.is_ballooned(601) && !balloon.is_ballooned(u32::MAX));
    balloon.write_status(&guest.memory, 0, &mut ()).expect("a reset");
    assert_eq!((balloon.count_ballooned(), balloon.ballooned.len(), balloon.may_tell()), (0, 96, false));
}

/// Parts that no notice has: they reach past their region, or have none. What lies after it stays.
#[test]
fn a_part_outside_of_its_region_is_not_discarded() {
    let whole = GuestMemoryMmap::<()>::from_ranges(&[(GuestAddress(0), 2 << 12)]).unwrap();
    let host = whole.get_host_address(GuestAddress(0)).unwrap();
    // SAFETY: the page is mapped as long as `whole` is, and nobody unmaps it twice, as it isn't owned.
    let first = unsafe { MmapRegion::<()>::build_raw(host, 1 << 12, libc::PROT_READ | libc::PROT_WRITE, 0) }.unwrap();
    let region = GuestRegionMmap::new(first, GuestAddress(0)).unwrap();
    let memory = GuestMemoryMmap::from_arc_regions(vec![Arc::new(region)]).unwrap();
    let cut = |region, offset, length| Cut { region, offset, in_file: offset, length };
    for wrong in [cut(0, 0, 2 << 12), cut(0, 1 << 12, 1 << 12), cut(0, 1 << 12, u64::MAX), cut(1, 0, 1 << 12)] {
        whole.write_obj(7u64, GuestAddress(1 << 12)).unwrap();
        let (alone, together) = (memory.discard(&wrong), memory.discard_together(&[wrong, wrong]));
        assert_eq!(alone.map_err(|it| it.kind()), Err(io::ErrorKind::InvalidInput), "{wrong:?}");
        assert_eq!(together, Together::default(), "{wrong:?}");
        assert_eq!(whole.read_obj::<u64>(GuestAddress(1 << 12)).unwrap(), 7, "{wrong:?}");
    }
    assert!(memory.discard(&cut(0, 0, 1 << 12)).is_ok());
}

/// Nor is a part that lies elsewhere in its region's file than in its region.
#[test]
fn a_part_elsewhere_in_a_file_is_not_discarded() {
    let file = file_of(3 << 12);
    let its = FileOffset::new(file.try_clone().unwrap(), 1 << 12);
    let memory = GuestMemoryMmap::<()>::from_ranges_with_files([(GuestAddress(0), 1 << 12, Some(its))]).unwrap();
    let cut = |in_file| Cut { region: 0, offset: 0, in_file, length: 1 << 12 };
    for (in_file, is_its) in [(0, false), (1 << 12, true), (2 << 12, false)] {
        file.write_all_at(&[7; 3 << 12], 0).unwrap();
        let wanted = if is_its { Ok(()) } else { Err(io::ErrorKind::InvalidInput) };
        assert_eq!(memory.discard(&cut(in_file)).map_err(|it| it.kind()), wanted, "{in_file:x}");
        let mut left = [0; 3 << 12];
        file.read_exact_at(&mut left, 0).unwrap();
        assert_eq!(left.iter().filter(|it| **it == 7).count(), (3 - usize::from(is_its)) << 12, "{in_file:x}");
    }
}
