//! Another processor that scribbles over rings and buffers.

use crate::guest::{buffer, settings, table, Guest};
use std::sync::atomic::{AtomicBool, Ordering};
use vb_balloon::{Kind, Monitor, Run, Settings};

/// The pages that are named are pages of the guest.
struct InRange;

impl Monitor for InRange {
    fn pages(&mut self, _kind: Kind, runs: &[Run]) {
        assert!(runs.iter().all(|run| run.count > 0 && u64::from(run.first) + u64::from(run.count) <= 6144));
    }
}

/// Stops the other processor, also where a test fails.
struct Stopping<'a>(&'a AtomicBool);

impl Drop for Stopping<'_> {
    fn drop(&mut self) {
        self.0.store(true, Ordering::Relaxed);
    }
}

#[test]
fn another_processor_scribbles() {
    let guest = Guest::new();
    let (mut balloon, stop) = (guest.ready(Settings { skips_bad_pages: true, ..settings() }), AtomicBool::new(false));
    let scribble = || {
        let mut random = 88_172_645_463_325_252u64;
        while !stop.load(Ordering::Relaxed) {
            random ^= random << 13;
            random ^= random >> 7;
            random ^= random << 17;
            let kind = Kind::ALL[random as usize % 4];
            match random / 4 % 4 {
                0 => guest.put(table(kind) + 4096 + 2, &[(random / 64 % 8) as u8, 0]),
                1 => guest.put(table(kind) + 4096 + 4 + random / 64 % 8 * 2, &[(random / 512 % 9) as u8]),
                2 => guest.put(buffer(kind) + random / 64 % 64, &(random >> 32).to_le_bytes()),
                _ => {
                    let (address, length) = (buffer(kind) + random / 64 % 8, (random / 512 % 65) as u32 * 2);
                    let page = (256 + random / 64 % 7000) * 4096;
                    let report = kind == Kind::Report;
                    let (address, length) = if report { (page, 8192) } else { (address, length) };
                    let flags = (random >> 40) as u16 % 2 + if report { 2 } else { 0 };
                    guest.describe(kind, random >> 48 & 7, address, length, flags, (random >> 52) as u16 % 9);
                }
            }
        }
    };
    std::thread::scope(|scope| {
        scope.spawn(scribble);
        let _stopping = Stopping(&stop);
        let (mut served, mut broken) = (0, 0);
        // On a busy machine the other processor may stand still for long: then more notices than usual.
        for i in 0..3_000_000 {
            if i >= 100_000 && served > 0 && broken > 0 {
                break;
            }
            let result = balloon.notify(&guest.memory, Kind::ALL[i % 4], &mut InRange);
            served += result.chains;
            let _ = balloon.ask_statistics(&guest.memory);
            if result.stopped.is_some() {
                broken += 1;
                balloon = guest.ready(Settings { skips_bad_pages: true, ..settings() });
            }
        }
        assert!(served > 0 && broken > 0, "served {} broken {}", served, broken);
    });
}
