//! Discards of private memory in vectors: scattered parts go back to the machine by one call.

use crate::obey::region_with;
use crate::raw::Cut;
use std::io;
use std::os::unix::io::{AsRawFd, FromRawFd, OwnedFd};
use vm_memory::{GuestMemory, GuestMemoryRegion, MemoryRegionAddress};

/// Parts that are discarded by one call at most.
pub(crate) const MOST_TOGETHER: usize = 256;

/// What came of parts that were to be discarded by one call.
#[derive(Clone, Copy, Debug, Default, PartialEq, Eq)]
pub struct Together {
    /// How many of them, from the first one on, the machine was asked for.
    pub asked: usize,
    /// How many of these, from the first one on, it discarded whole.
    pub discarded: usize,
}

/// The place of a part in this process, where its region is private memory.
fn private_part<M: GuestMemory>(memory: &M, cut: &Cut) -> Option<libc::iovec> {
    let region = region_with(memory, cut).filter(|it| it.file_offset().is_none())?;
    let host = region.get_host_address(MemoryRegionAddress(cut.offset)).ok()?;
    Some(libc::iovec { iov_base: host.cast(), iov_len: cut.length as usize })
}

/// This process, for calls that name one.
fn own_process() -> io::Result<OwnedFd> {
    // SAFETY: neither call takes a pointer.
    match unsafe { libc::syscall(libc::SYS_pidfd_open, libc::getpid(), 0) } {
        file if file < 0 => Err(io::Error::last_os_error()),
        // SAFETY: the descriptor is new, and nobody else's.
        file => Ok(unsafe { OwnedFd::from_raw_fd(file as libc::c_int) }),
    }
}

/// Has the kernel discard parts of this process's private memory; how many bytes of them it did.
fn drop_all(parts: &[libc::iovec]) -> usize {
    let discard = |process: OwnedFd| {
        let (file, first, count) = (process.as_raw_fd(), parts.as_ptr(), parts.len());
        // SAFETY: each part lies in a region, which is mapped while its memory is borrowed, and is the guest's: a reader
        // of it expects any value at any time.
        unsafe { libc::syscall(libc::SYS_process_madvise, file, first, count, libc::MADV_DONTNEED, 0) }
    };
    own_process().map_or(0, |process| usize::try_from(discard(process)).unwrap_or(0))
}

/// How many parts these bytes are, from the first one on.
fn whole_parts(parts: &[libc::iovec], bytes: usize) -> usize {
    let mut left = bytes;
    let is_whole = |part: &&libc::iovec| left.checked_sub(part.iov_len).map(|rest| left = rest).is_some();
    parts.iter().take_while(is_whole).count()
}

/// Discards the first of these parts by one call, as far as they lie in private memory and are at least two.
pub(crate) fn discard_together<M: GuestMemory>(memory: &M, cuts: &[Cut]) -> Together {
    let parts: Vec<_> = cuts.iter().take(MOST_TOGETHER).map_while(|cut| private_part(memory, cut)).collect();
    match parts.len() {
        0 | 1 => Together::default(),
        asked => Together { asked, discarded: whole_parts(&parts, drop_all(&parts)) },
    }
}
