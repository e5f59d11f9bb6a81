//! Guest memory that a test in C has mapped.
// Versions of `vm-memory` differ in how an iterator of regions is named.
#![allow(unknown_lints, unexpected_cfgs, refining_impl_trait)]

use crate::Mapped;
use std::fs::File;
use std::io;
use std::os::unix::io::FromRawFd;
use std::sync::atomic::Ordering;
use vb_balloon::Cut;
#[cfg(names_the_iterator)]
use vm_memory::guest_memory::GuestMemoryIterator;
use vm_memory::guest_memory::{Error, Result};
use vm_memory::{
    AtomicAccess, Bytes, FileOffset, GuestAddress, GuestMemory, GuestMemoryRegion, GuestUsize, MemoryRegionAddress,
    VolatileSlice,
};

/// In place of a file: shared anonymous memory.
const SHARED: i32 = -2;

/// A region, as `vm-memory` has it.
pub struct Region {
    mapped: Mapped,
    file: Option<FileOffset>,
}

impl Region {
    fn new(mapped: &Mapped) -> Region {
        // SAFETY: the descriptor is the test's, and the copy is nobody else's.
        let file = (mapped.fd >= 0).then(|| unsafe { File::from_raw_fd(libc::dup(mapped.fd)) });
        Region { mapped: *mapped, file: file.map(|file| FileOffset::new(file, mapped.offset)) }
    }

    fn bytes(&self) -> VolatileSlice<'_, ()> {
        // SAFETY: the test has mapped them.
        unsafe { VolatileSlice::new(self.mapped.host, self.mapped.length as usize) }
    }
}

impl Bytes<MemoryRegionAddress> for Region {
    type E = Error;

    fn write(&self, bytes: &[u8], at: MemoryRegionAddress) -> Result<usize> {
        self.bytes().write(bytes, at.0 as usize).map_err(Into::into)
    }

    fn read(&self, bytes: &mut [u8], at: MemoryRegionAddress) -> Result<usize> {
        self.bytes().read(bytes, at.0 as usize).map_err(Into::into)
    }

    fn write_slice(&self, bytes: &[u8], at: MemoryRegionAddress) -> Result<()> {
        self.bytes().write_slice(bytes, at.0 as usize).map_err(Into::into)
    }

    fn read_slice(&self, bytes: &mut [u8], at: MemoryRegionAddress) -> Result<()> {
        self.bytes().read_slice(bytes, at.0 as usize).map_err(Into::into)
    }

    fn read_from<F: io::Read>(&self, _: MemoryRegionAddress, _: &mut F, _: usize) -> Result<usize> {
        unreachable!("the crate reads no stream into memory")
    }

    fn read_exact_from<F: io::Read>(&self, _: MemoryRegionAddress, _: &mut F, _: usize) -> Result<()> {
        unreachable!("the crate reads no stream into memory")
    }

    fn write_to<F: io::Write>(&self, _: MemoryRegionAddress, _: &mut F, _: usize) -> Result<usize> {
        unreachable!("the crate writes memory to no stream")
    }

    fn write_all_to<F: io::Write>(&self, _: MemoryRegionAddress, _: &mut F, _: usize) -> Result<()> {
        unreachable!("the crate writes memory to no stream")
    }

    fn store<T: AtomicAccess>(&self, word: T, at: MemoryRegionAddress, order: Ordering) -> Result<()> {
        self.bytes().store(word, at.0 as usize, order).map_err(Into::into)
    }

    fn load<T: AtomicAccess>(&self, at: MemoryRegionAddress, order: Ordering) -> Result<T> {
        self.bytes().load(at.0 as usize, order).map_err(Into::into)
    }
}

impl GuestMemoryRegion for Region {
    type B = ();

    fn len(&self) -> GuestUsize {
        self.mapped.length
    }

    fn start_addr(&self) -> GuestAddress {
        GuestAddress(self.mapped.guest)
    }

    fn bitmap(&self) -> &() {
        &()
    }

    fn file_offset(&self) -> Option<&FileOffset> {
        self.file.as_ref()
    }

    fn get_slice(&self, at: MemoryRegionAddress, count: usize) -> Result<VolatileSlice<'_, ()>> {
        self.bytes().subslice(at.0 as usize, count).map_err(Into::into)
    }

    fn get_host_address(&self, at: MemoryRegionAddress) -> Result<*mut u8> {
        self.check_address(at).ok_or(Error::InvalidBackendAddress)?;
        Ok(self.mapped.host.wrapping_add(at.0 as usize))
    }
}

/// Regions in the test's order.
pub struct Memory(Vec<Region>);

impl Memory {
    /// # Safety
    /// The pointer is of `count` regions that are mapped, or none.
    pub unsafe fn new(regions: *const Mapped, count: usize) -> Memory {
        let regions = if count > 0 { std::slice::from_raw_parts(regions, count) } else { &[] };
        Memory(regions.iter().map(Region::new).collect())
    }

    pub fn mapped(&self, number: usize) -> &Mapped {
        &self.0[number].mapped
    }

    pub fn is_shared(&self, number: usize) -> bool {
        self.0[number].mapped.fd == SHARED
    }

    /// Whether a region is shared anonymous memory.
    pub fn has_shared(&self) -> bool {
        (0..self.0.len()).any(|number| self.is_shared(number))
    }

    /// Discards shared anonymous memory.
    pub fn remove(&self, cut: &Cut) -> io::Result<()> {
        let host = self.0[cut.region].mapped.host.wrapping_add(cut.offset as usize);
        // SAFETY: the bytes are the guest's, whose memory the test has mapped.
        match unsafe { libc::madvise(host.cast(), cut.length as usize, libc::MADV_REMOVE) } {
            0 => Ok(()),
            _ => Err(io::Error::last_os_error()),
        }
    }
}

/// Their iterator, which `vm-memory` wants to have named before 0.16.
#[cfg(names_the_iterator)]
pub struct Regions;

#[cfg(names_the_iterator)]
impl<'a> GuestMemoryIterator<'a, Region> for Regions {
    type Iter = std::slice::Iter<'a, Region>;
}

impl GuestMemory for Memory {
    type R = Region;
    #[cfg(names_the_iterator)]
    type I = Regions;

    fn num_regions(&self) -> usize {
        self.0.len()
    }

    fn find_region(&self, address: GuestAddress) -> Option<&Region> {
        self.0.iter().find(|it| it.start_addr() <= address && address <= it.last_addr())
    }

    fn iter(&self) -> std::slice::Iter<'_, Region> {
        self.0.iter()
    }
}
