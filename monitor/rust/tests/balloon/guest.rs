//! A guest's memory and its driver, played by hand, and a monitor that remembers what it is told.

use std::fs::File;
use std::os::unix::io::FromRawFd;
use vb_balloon::{features, Balloon, Denied, Kind, Monitor, Run, Settings, Statistic};
use vm_memory::{Bytes, FileOffset, GuestAddress, GuestMemoryMmap};

pub const HIGH: u64 = 16 << 20;
pub const LINUX: u64 = features::VERSION_1 | 0x27;
const SIZE: u16 = 8;

/// Remembers what it is told.
#[derive(Default)]
pub struct Told {
    pub runs: Vec<(Kind, Vec<Run>)>,
    pub figures: Vec<Statistic>,
}

impl Monitor for Told {
    fn pages(&mut self, kind: Kind, runs: &[Run]) {
        self.runs.push((kind, runs.to_vec()));
    }

    fn statistics(&mut self, figures: &[Statistic]) {
        self.figures = figures.to_vec();
    }
}

/// A guest's memory with its driver's counts.
pub struct Guest {
    pub memory: GuestMemoryMmap,
    published: [u16; 5],
}

pub fn file_of(length: u64) -> File {
    // SAFETY: the name ends with a zero, and the descriptor is nobody else's.
    let file = unsafe { File::from_raw_fd(libc::memfd_create(b"guest\0".as_ptr().cast(), 0)) };
    file.set_len(length).expect("a file");
    file
}

pub fn table(kind: Kind) -> u64 {
    (16 + 4 * kind as u64) * 4096
}

pub fn buffer(kind: Kind) -> u64 {
    (40 + kind as u64) * 4096 + 0x91c
}

impl Guest {
    pub fn new() -> Guest {
        let low = (GuestAddress(0), 8 << 20, Some(FileOffset::new(file_of(8 << 20), 0)));
        let high = (GuestAddress(HIGH), 8 << 20, None);
        let memory = GuestMemoryMmap::from_ranges_with_files([low, high]).expect("memory");
        Guest { memory, published: [0; 5] }
    }

    pub fn put(&self, address: u64, bytes: &[u8]) {
        self.memory.write_slice(bytes, GuestAddress(address)).expect("memory");
    }

    pub fn byte(&self, address: u64) -> u8 {
        self.memory.read_obj(GuestAddress(address)).expect("memory")
    }

    pub fn describe(&self, kind: Kind, number: u64, address: u64, length: u32, flags: u16, next: u16) {
        let at = table(kind) + 16 * number;
        self.put(at, &address.to_le_bytes());
        self.put(at + 8, &length.to_le_bytes());
        self.put(at + 12, &flags.to_le_bytes());
        self.put(at + 14, &next.to_le_bytes());
    }

    pub fn publish(&mut self, kind: Kind, head: u16) {
        let index = &mut self.published[kind as usize];
        let entry = table(kind) + 4096 + 4 + 2 * u64::from(*index % SIZE);
        *index += 1;
        let index = *index;
        self.put(entry, &head.to_le_bytes());
        self.put(table(kind) + 4096 + 2, &index.to_le_bytes());
    }

    pub fn name(&mut self, kind: Kind, pages: &[u32]) {
        for (i, page) in pages.iter().enumerate() {
            self.put(buffer(kind) + 4 * i as u64, &page.to_le_bytes());
        }
        self.describe(kind, 0, buffer(kind), 4 * pages.len() as u32, 0, 0);
        self.publish(kind, 0);
    }

    pub fn used_index(&self, kind: Kind) -> u8 {
        self.byte(table(kind) + 2 * 4096 + 2)
    }

    /// A balloon at status 11, its queues at their places.
    pub fn prepared(&self, settings: Settings) -> Balloon {
        self.prepared_with(settings, LINUX)
    }

    pub fn prepared_with(&self, settings: Settings, wanted: u64) -> Balloon {
        let mut balloon = Balloon::new(&self.memory, settings).expect("settings");
        assert_eq!(balloon.negotiate(LINUX), Err(Denied(2)));
        for status in [0, 1, 3] {
            balloon.write_status(&self.memory, status, &mut ()).expect("a step");
        }
        assert_eq!(balloon.negotiate(1 << 40), Err(Denied(3)));
        balloon.negotiate(wanted).expect("features");
        balloon.write_status(&self.memory, 11, &mut ()).expect("a step");
        for number in 0..4 {
            let kind = balloon.kind(number).expect("a queue");
            let at = table(kind);
            balloon.place(&self.memory, kind, at, at + 4096, at + 8192, SIZE).expect("a place");
        }
        assert_eq!(balloon.kind(4), None);
        balloon
    }

    pub fn ready(&self, settings: Settings) -> Balloon {
        let mut balloon = self.prepared(settings);
        balloon.write_status(&self.memory, 15, &mut ()).expect("a step");
        balloon
    }
}

pub fn settings() -> Settings {
    Settings { offered: LINUX, ..Settings::default() }
}
