//! The memory of a guest in a file, which the driver reads and writes there. It has no place in this process.

use std::fs::{remove_file, File};
use std::os::fd::AsRawFd;
use std::os::unix::fs::{FileExt, MetadataExt};
use vhost::VhostUserMemoryRegionInfo;

pub const QUEUE_SIZE: u16 = 64;

const PAGE: u64 = 4096;
const SIZES: [u64; 2] = [1024 * PAGE, 256 * PAGE];

/// Blocks of a file's page, as `stat` counts them.
pub const BLOCKS_OF_PAGE: u64 = PAGE / 512;

/// Where the front end would have mapped the memory, as the addresses of rings are told.
const MAPPED: u64 = 0x7f00_0000_0000;

/// Each queue has three pages from 0 on; the one request has a page of its own.
const PAGES_OF_QUEUE: u64 = 3;
pub const BUFFER: u64 = 16 * PAGE;

pub struct Memory {
    pub file: File,
}

impl Memory {
    /// Memory of which each page is written to, in a file without a name.
    pub fn new() -> Memory {
        let path = format!("/dev/shm/frontend-{}", std::process::id());
        let file = File::options().read(true).write(true).create_new(true).open(&path).expect("memory");
        remove_file(path).expect("memory");
        let memory = Memory { file };
        let [first, second] = SIZES;
        memory.write(0, &vec![0xff; (first + second) as usize]);
        memory.write(0, &vec![0; BUFFER as usize]);
        memory
    }

    /// The regions: one after the other in the file and in the guest.
    pub fn region(&self, number: usize) -> VhostUserMemoryRegionInfo {
        let at = SIZES[..number].iter().sum();
        VhostUserMemoryRegionInfo {
            guest_phys_addr: at,
            memory_size: SIZES[number],
            userspace_addr: MAPPED + at,
            mmap_offset: at,
            mmap_handle: self.file.as_raw_fd(),
        }
    }

    fn write(&self, at: u64, bytes: &[u8]) {
        self.file.write_all_at(bytes, at).expect("memory");
    }

    fn read<const N: usize>(&self, at: u64) -> [u8; N] {
        let mut bytes = [0; N];
        self.file.read_exact_at(&mut bytes, at).expect("memory");
        bytes
    }

    /// What the file has in blocks.
    pub fn blocks(&self) -> u64 {
        self.file.metadata().expect("memory").blocks()
    }

    /// The addresses of a queue's table, available and used ring, as the front end has them mapped.
    pub fn ring(&self, number: usize) -> [u64; 3] {
        [0, 1, 2].map(|part| MAPPED + (PAGES_OF_QUEUE * number as u64 + part) * PAGE)
    }

    /// Posts a request of these page numbers as the first of a queue (VIRTIO 1.1, 2.6.5, 2.6.6).
    pub fn post(&self, number: u64, pages: &[u32]) {
        let [table, available] = [0, 1].map(|part| (PAGES_OF_QUEUE * number + part) * PAGE);
        let request: Vec<u8> = pages.iter().flat_map(|page| page.to_le_bytes()).collect();
        self.write(BUFFER, &request);
        self.write(table, &BUFFER.to_le_bytes());
        self.write(table + 8, &(request.len() as u32).to_le_bytes());
        self.write(available + 2, &1u16.to_le_bytes());
    }

    /// The used index of a queue, and its first element: the chain and the bytes that were written (VIRTIO 1.1, 2.6.8).
    pub fn used_index(&self, number: u64) -> u16 {
        u16::from_le_bytes(self.read((PAGES_OF_QUEUE * number + 2) * PAGE + 2))
    }

    pub fn used_element(&self, number: u64) -> (u32, u32) {
        let at = (PAGES_OF_QUEUE * number + 2) * PAGE + 4;
        (u32::from_le_bytes(self.read(at)), u32::from_le_bytes(self.read(at + 4)))
    }
}
