//! How a monitor uses the crate. The driver's side is played here, where a monitor has its transport.

use vb_balloon::{features, Balloon, Kind, Monitor, Run, Settings};
use vm_memory::{Bytes, GuestAddress, GuestMemoryMmap};

/// Prints what the guest gives up.
struct Printing;

impl Monitor for Printing {
    fn pages(&mut self, kind: Kind, runs: &[Run]) {
        println!("{:?}: {:?}", kind, runs);
    }
}

fn main() {
    // Guest memory as the monitor maps it: here 4 MiB from address 0 on.
    let memory: GuestMemoryMmap = GuestMemoryMmap::from_ranges(&[(GuestAddress(0), 4 << 20)]).expect("memory");
    let offered = features::VERSION_1 | features::MUST_TELL_HOST;
    let settings = Settings { offered, skips_bad_pages: true, ..Settings::default() };
    let mut balloon = Balloon::new(&memory, settings).expect("settings");

    // The driver's accesses, as the transport tells of them.
    for status in [1, 3] {
        balloon.write_status(&memory, status, &mut Printing).expect("a step");
    }
    balloon.negotiate(offered).expect("features");
    balloon.write_status(&memory, 11, &mut Printing).expect("a step");
    balloon.place(&memory, Kind::Inflate, 0x10000, 0x11000, 0x12000, 256).expect("a place");
    balloon.place(&memory, Kind::Deflate, 0x14000, 0x15000, 0x16000, 256).expect("a place");
    balloon.write_status(&memory, 15, &mut Printing).expect("a step");
    balloon.set_target(2); // and interrupt the guest for a change of configuration

    // The driver offers pages 512 and 513: their numbers, a descriptor, an entry, the index; then it kicks.
    let put = |address, bytes: &[u8]| memory.write_slice(bytes, GuestAddress(address)).expect("memory");
    put(512 * 4096, &[7]);
    put(0x20000, &[1, 2, 0, 0, 0, 2, 0, 0]);
    put(0x10000, &[0, 0, 2, 0, 0, 0, 0, 0, 8]);
    put(0x11000, &[0, 0, 1, 0, 0, 0]);
    let kind = balloon.kind(0).expect("a queue");
    let served = balloon.notify(&memory, kind, &mut Printing);
    println!("{:?}", served);
    if served.interrupts != 0 {
        println!("interrupt the guest for a used buffer");
    }
    let byte: u8 = memory.read_obj(GuestAddress(512 * 4096)).expect("memory");
    assert_eq!((byte, served.discarded), (0, 2));
}
