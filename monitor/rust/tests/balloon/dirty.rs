//! What a device writes is marked in the bitmap of its memory, which a VMM that migrates reads.

use vb_balloon::{features, Balloon, Kind, Settings};
use vm_memory::bitmap::{AtomicBitmap, Bitmap};
use vm_memory::{Bytes, GuestAddress, GuestMemory, GuestMemoryMmap, GuestMemoryRegion};

const TABLE: u64 = 0x10000;
const AVAIL: u64 = 0x11000;
const USED: u64 = 0x12000;
const BUFFER: u64 = 0x20000;
const PAGES: u64 = 64;
/// So that elements lie on the page after the used index's, too.
const SIZE: u16 = 1024;

/// The pages whose bits are set.
fn marked(memory: &GuestMemoryMmap<AtomicBitmap>) -> Vec<u64> {
    let region = memory.find_region(GuestAddress(0)).expect("a region");
    (0..PAGES).filter(|it| region.bitmap().dirty_at(*it as usize * 4096)).collect()
}

fn ready(memory: &GuestMemoryMmap<AtomicBitmap>) -> Balloon {
    let settings = Settings { offered: features::VERSION_1 | 0x27, ..Settings::default() };
    let mut balloon = Balloon::new(memory, settings).expect("settings");
    for status in [1, 3] {
        balloon.write_status(memory, status, &mut ()).expect("a step");
    }
    balloon.negotiate(features::VERSION_1 | 0x27).expect("features");
    balloon.write_status(memory, 11, &mut ()).expect("a step");
    balloon.place(memory, Kind::Inflate, TABLE, AVAIL, USED, SIZE).expect("a place");
    balloon.write_status(memory, 15, &mut ()).expect("a step");
    balloon
}

#[test]
fn what_the_device_writes_is_marked() {
    let memory = GuestMemoryMmap::<AtomicBitmap>::from_ranges(&[(GuestAddress(0), PAGES as usize * 4096)]).expect("memory");
    let mut balloon = ready(&memory);
    let put = |address, bytes: &[u8]| memory.write_slice(bytes, GuestAddress(address)).expect("memory");
    put(BUFFER, &50u32.to_le_bytes());
    put(TABLE, &[&BUFFER.to_le_bytes()[..], &4u32.to_le_bytes(), &[0; 4]].concat());
    // The 512th used element begins 4 bytes into the second page of the used ring.
    for index in 1..=512u16 {
        put(AVAIL + 2, &index.to_le_bytes());
        memory.find_region(GuestAddress(0)).expect("a region").bitmap().reset();
        assert_eq!(balloon.notify(&memory, Kind::Inflate, &mut ()).chains, 1);
        let pages = if index < 512 { vec![USED / 4096] } else { vec![USED / 4096, USED / 4096 + 1] };
        assert_eq!(marked(&memory), pages, "at chain {}", index);
    }
}
