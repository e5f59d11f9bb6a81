//! What the machine sees: where a hole is punched in a file.

use std::fs::File;
use std::os::unix::io::{AsRawFd, FromRawFd};
use vb_balloon::{Cut, LiveMemory};
use vm_memory::{Bytes, FileOffset, GuestAddress, GuestMemoryMmap};

const PAGE: u64 = 4096;

fn file_of(length: u64) -> File {
    // SAFETY: the name ends with a zero, and the descriptor is nobody else's.
    let file = unsafe { File::from_raw_fd(libc::memfd_create(b"guest\0".as_ptr().cast(), 0)) };
    file.set_len(length).expect("a file");
    file
}

/// The pages of a file that the machine doesn't hold.
fn holes(file: &File, pages: u64) -> Vec<u64> {
    let is_hole = |page: &u64| {
        let at = (page * PAGE) as libc::off_t;
        // SAFETY: the call takes no pointer.
        unsafe { libc::lseek(file.as_raw_fd(), at, libc::SEEK_HOLE) == at }
    };
    (0..pages).filter(is_hole).collect()
}

#[test]
fn a_hole_is_punched_where_the_region_begins_in_its_file() {
    let file = file_of(64 * PAGE);
    let part = FileOffset::new(file.try_clone().expect("a file"), 16 * PAGE);
    let range = (GuestAddress(1 << 20), 32 * PAGE as usize, Some(part));
    let memory: GuestMemoryMmap = GuestMemoryMmap::from_ranges_with_files([range]).expect("memory");
    let whole = (GuestAddress(0), 64 * PAGE as usize, Some(FileOffset::new(file.try_clone().expect("a file"), 0)));
    let all: GuestMemoryMmap = GuestMemoryMmap::from_ranges_with_files([whole]).expect("memory");
    all.write_slice(&vec![7; 64 * PAGE as usize], GuestAddress(0)).expect("memory");
    assert_eq!(holes(&file, 64), [0u64; 0]);
    let mut regions = Vec::new();
    memory.regions(&mut regions);
    assert_eq!((regions[0].guest, regions[0].length, regions[0].in_file), (1 << 20, 32 * PAGE, 16 * PAGE));
    let cut = Cut { region: 0, offset: 5 * PAGE, in_file: 21 * PAGE, length: 2 * PAGE };
    memory.discard(&cut).expect("a hole");
    assert_eq!(holes(&file, 64), [21u64, 22]);
    memory.discard(&Cut { region: 1, ..cut }).expect_err("there is no such region");
    let refused = memory.discard(&Cut { length: 0, ..cut }).expect_err("no byte");
    assert_eq!(refused.raw_os_error(), Some(libc::EINVAL));
}
