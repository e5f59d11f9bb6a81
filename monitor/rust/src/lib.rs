//! A memory balloon device (VIRTIO 1.1, 5.5) over the guest memory of `vm-memory`. What it decides, each access to that
//! memory among it, is proved in the library of `vb.h`; this crate obeys it.
//!
//! A monitor makes a [`Balloon`], hands each of its driver's accesses to the call of that name, and does what the
//! answer says. No call panics, whatever a guest writes and whenever it writes it.

mod balloon;
mod discards;
mod errors;
mod held;
mod hints;
pub mod lender;
mod obey;
mod pause;
pub mod policy;
mod raw;
mod served;
mod settings;
mod state;

pub use balloon::Balloon;
pub use discards::Together;
pub use obey::{Cut, LiveMemory, Monitor, Run, Spot, Statistic, Unreachable};
pub use pause::Pause;
pub use raw::{QueueStart, Region};
pub use served::Served;
pub use settings::{features, Denied, Kind, Refusal, Settings};
pub use state::{State, StateError, STATE_BYTES};

/// Bytes of a page.
pub const PAGE: u64 = 4096;

/// Whether the library is of the version that this crate is written for, so that structs and codes are the same.
pub fn is_library_of_this_version() -> bool {
    // SAFETY: they have no arguments.
    unsafe { is_compatible(raw::vb_version()) && raw::vb_host_version() == raw::HOST_VERSION }
}

/// Whether a version is that of this crate, or differs in its third number alone.
fn is_compatible(version: u32) -> bool {
    version >> 8 == raw::VERSION_NUMBER >> 8
}

#[cfg(test)]
mod tests {
    #[test]
    fn versions_that_differ_in_the_third_number_are_compatible() {
        let own = crate::raw::VERSION_NUMBER & !0xff;
        for (version, compatible) in [
            (own, true),
            (own + 1, true),
            (own + 0xff, true),
            (own - 0x100, false),
            (own + 0x100, false),
            (own + 0x1000, false),
            (own + 0x1_0000, false),
            (own + 0x100_0000, false),
        ] {
            assert_eq!(super::is_compatible(version), compatible, "{version:x}");
        }
    }
}
