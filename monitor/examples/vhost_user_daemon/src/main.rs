//! A balloon as a daemon of vhost-user, on rust-vmm's crate `vhost-user-backend`:
//!
//!     vhost_user_daemon SOCKET PAGES
//!
//! serves the first client of the socket, with a target of PAGES pages. The crate has limits that `vhost_user_balloon` hasn't: it
//! has no message for a change of configuration, so the target stays as it is; it tells a device of kicks alone, so a queue is
//! started at its first kick; it ends the connection where it refuses a message.

mod device;

use device::Device;
use std::sync::{Arc, RwLock};
use vhost_user_backend::VhostUserDaemon;
use vm_memory::{GuestMemoryAtomic, GuestMemoryMmap};

fn main() {
    let words: Vec<_> = std::env::args().skip(1).collect();
    let pages = words.get(1).and_then(|word| word.parse().ok());
    let (Some(socket), Some(pages)) = (words.first(), pages) else {
        eprintln!("vhost_user_daemon SOCKET PAGES");
        std::process::exit(2);
    };
    let memory = GuestMemoryAtomic::new(GuestMemoryMmap::new());
    let device = Arc::new(RwLock::new(Device::new(pages)));
    let mut daemon = VhostUserDaemon::new("balloon".into(), device, memory).expect("a daemon");
    if let Err(why) = daemon.serve(socket) {
        eprintln!("vhost_user_daemon: {why}");
        std::process::exit(1);
    }
}
