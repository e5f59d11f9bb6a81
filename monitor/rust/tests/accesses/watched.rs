//! Memory and a monitor that write down what is asked of them, in order.
// Versions of `vm-memory` differ in how an iterator of regions is named.
#![allow(unknown_lints, unexpected_cfgs, refining_impl_trait)]

use std::cell::RefCell;
use std::io;
use std::rc::Rc;
use std::sync::atomic::Ordering;
use std::sync::Arc;
use vb_balloon::{Cut, Kind, LiveMemory, Monitor, Region, Run, Spot, Unreachable};
use vm_memory::guest_memory::Result as Answer;
#[cfg(names_the_iterator)]
use vm_memory::guest_memory::GuestMemoryIterator;
use vm_memory::{
    AtomicAccess, Bytes, FileOffset, GuestAddress, GuestMemory, GuestMemoryRegion, GuestRegionMmap, GuestUsize,
    MemoryRegionAddress, VolatileSlice,
};

/// What is asked of memory, or told to the monitor; places are the guest's.
#[derive(Clone, Debug, PartialEq, Eq)]
pub enum Access {
    Load(u64),
    Read(u64, usize),
    Store(u64, Vec<u8>),
    Fence(Ordering),
    Told(Kind, Vec<(u32, u32)>),
    Figures(usize),
    Id(u32),
    Discard(u64, u64),
}

pub type Log = Rc<RefCell<Vec<Access>>>;

/// A region that writes down what is asked of it.
pub struct Watched {
    pub region: Arc<GuestRegionMmap>,
    pub log: Log,
}

impl Watched {
    fn note(&self, access: impl FnOnce(u64) -> Access, at: MemoryRegionAddress) {
        self.log.borrow_mut().push(access(self.region.start_addr().0 + at.0));
    }
}

impl Bytes<MemoryRegionAddress> for Watched {
    type E = vm_memory::GuestMemoryError;

    fn write(&self, bytes: &[u8], at: MemoryRegionAddress) -> Answer<usize> {
        self.note(|address| Access::Store(address, bytes.to_vec()), at);
        self.region.write(bytes, at)
    }

    fn read(&self, bytes: &mut [u8], at: MemoryRegionAddress) -> Answer<usize> {
        self.note(|address| Access::Read(address, bytes.len()), at);
        self.region.read(bytes, at)
    }

    fn write_slice(&self, bytes: &[u8], at: MemoryRegionAddress) -> Answer<()> {
        self.note(|address| Access::Store(address, bytes.to_vec()), at);
        self.region.write_slice(bytes, at)
    }

    fn read_slice(&self, bytes: &mut [u8], at: MemoryRegionAddress) -> Answer<()> {
        self.note(|address| Access::Read(address, bytes.len()), at);
        self.region.read_slice(bytes, at)
    }

    fn read_from<F: io::Read>(&self, _: MemoryRegionAddress, _: &mut F, _: usize) -> Answer<usize> {
        unreachable!("the crate reads no stream into memory")
    }

    fn read_exact_from<F: io::Read>(&self, _: MemoryRegionAddress, _: &mut F, _: usize) -> Answer<()> {
        unreachable!("the crate reads no stream into memory")
    }

    fn write_to<F: io::Write>(&self, _: MemoryRegionAddress, _: &mut F, _: usize) -> Answer<usize> {
        unreachable!("the crate writes memory to no stream")
    }

    fn write_all_to<F: io::Write>(&self, _: MemoryRegionAddress, _: &mut F, _: usize) -> Answer<()> {
        unreachable!("the crate writes memory to no stream")
    }

    fn store<T: AtomicAccess>(&self, word: T, at: MemoryRegionAddress, order: Ordering) -> Answer<()> {
        self.note(|address| Access::Store(address, word.as_slice().to_vec()), at);
        self.region.store(word, at, order)
    }

    fn load<T: AtomicAccess>(&self, at: MemoryRegionAddress, order: Ordering) -> Answer<T> {
        self.note(Access::Load, at);
        self.region.load(at, order)
    }
}

impl GuestMemoryRegion for Watched {
    type B = ();

    fn len(&self) -> GuestUsize {
        self.region.len()
    }

    fn start_addr(&self) -> GuestAddress {
        self.region.start_addr()
    }

    fn bitmap(&self) -> &() {
        &()
    }

    fn file_offset(&self) -> Option<&FileOffset> {
        self.region.file_offset()
    }

    fn get_slice(&self, at: MemoryRegionAddress, count: usize) -> Answer<VolatileSlice<'_, ()>> {
        self.note(|address| Access::Read(address, count), at);
        self.region.get_slice(at, count)
    }
}

/// Two regions with a hole between them, from 0 to 2 MiB and from 4 MiB to 6 MiB.
pub struct Memory {
    pub regions: Vec<Watched>,
}

/// Their iterator, which `vm-memory` wants to have named before 0.16.
#[cfg(names_the_iterator)]
pub struct Regions;

#[cfg(names_the_iterator)]
impl<'a> GuestMemoryIterator<'a, Watched> for Regions {
    type Iter = std::slice::Iter<'a, Watched>;
}

impl GuestMemory for Memory {
    type R = Watched;
    #[cfg(names_the_iterator)]
    type I = Regions;

    fn num_regions(&self) -> usize {
        self.regions.len()
    }

    fn find_region(&self, address: GuestAddress) -> Option<&Watched> {
        self.regions.iter().find(|it| it.start_addr() <= address && address <= it.last_addr())
    }

    fn iter(&self) -> std::slice::Iter<'_, Watched> {
        self.regions.iter()
    }
}

/// A memory as `Memory` is, whose fences are noted, too.
pub struct Fenced<'a>(pub &'a Memory, pub Log);

impl LiveMemory for Fenced<'_> {
    fn regions(&self, out: &mut Vec<Region>) {
        self.0.regions(out);
    }

    fn word(&self, at: Spot) -> Result<u16, Unreachable> {
        self.0.word(at)
    }

    fn copy(&self, at: Spot, to: &mut [u8]) -> Result<(), Unreachable> {
        self.0.copy(at, to)
    }

    fn write_number(&self, at: Spot, number: u32) -> Result<(), Unreachable> {
        self.0.write_number(at, number)
    }

    fn write_word(&self, at: Spot, word: u16) -> Result<(), Unreachable> {
        self.0.write_word(at, word)
    }

    fn fence(&self, order: Ordering) {
        self.1.borrow_mut().push(Access::Fence(order));
    }

    fn discard(&self, cut: &Cut) -> io::Result<()> {
        self.0.discard(cut)
    }
}

/// A monitor that writes down what it is told, and what it is to discard.
pub struct Noting(pub Log);

impl Monitor for Noting {
    fn pages(&mut self, kind: Kind, runs: &[Run]) {
        let runs = runs.iter().map(|it| (it.first, it.count)).collect();
        self.0.borrow_mut().push(Access::Told(kind, runs));
    }

    fn hint_id(&mut self, id: u32) {
        self.0.borrow_mut().push(Access::Id(id));
    }

    fn statistics(&mut self, figures: &[vb_balloon::Statistic]) {
        self.0.borrow_mut().push(Access::Figures(figures.len()));
    }

    fn discard(&mut self, memory: &dyn LiveMemory, cut: &Cut) -> io::Result<()> {
        let mut regions = Vec::new();
        memory.regions(&mut regions);
        self.0.borrow_mut().push(Access::Discard(regions[cut.region].guest + cut.offset, cut.length));
        Ok(())
    }
}
