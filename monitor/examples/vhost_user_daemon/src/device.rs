//! The device as `vhost-user-backend` calls it.

use std::io::{Error, ErrorKind, Result};
use vb_balloon::{features, Balloon, Kind, QueueStart, Served, Settings};
use vhost::vhost_user::message::{VhostUserProtocolFeatures, VhostUserVirtioFeatures};
use vhost_user_backend::{VhostUserBackendMut, VringRwLock, VringT};
use virtio_queue::QueueT;
use vm_memory::{GuestAddressSpace, GuestMemoryAtomic, GuestMemoryMmap};
use vmm_sys_util::epoll::EventSet;

type Memory = GuestMemoryAtomic<GuestMemoryMmap>;

const OFFERED: u64 = features::VERSION_1
    | features::MUST_TELL_HOST
    | features::STATS_VQ
    | features::DEFLATE_ON_OOM
    | features::REPORTING;

/// Chains of a kick before the next one's turn; what is left is served at once, in a turn of its own.
const MOST_CHAINS: u32 = 64;

/// ACKNOWLEDGE, DRIVER, FEATURES_OK and DRIVER_OK (VIRTIO 1.1, 2.1), one after the other.
const BEFORE_FEATURES: [u8; 2] = [1, 3];
const FEATURES_OK: u8 = 11;
const DRIVER_OK: u8 = 15;

/// A balloon, and the queues of it that run: where each is, and the index at which it continues.
struct Running {
    balloon: Balloon,
    queues: [QueueStart; Kind::ALL.len()],
}

pub struct Device {
    target: u32,
    features: u64,
    memory: Option<Memory>,
    running: Option<Running>,
}

fn refused(why: impl std::fmt::Debug) -> Error {
    Error::new(ErrorKind::InvalidData, format!("{why:?}"))
}

impl Device {
    /// A device without a driver, with this target.
    pub fn new(target: u32) -> Device {
        Device { target, features: 0, memory: None, running: None }
    }

    /// A balloon whose driver has negotiated its features.
    fn begin(&self, memory: &GuestMemoryMmap) -> Result<Running> {
        let settings = Settings { offered: OFFERED, skips_bad_pages: true, ..Settings::default() };
        let mut balloon = Balloon::new(memory, settings).map_err(refused)?;
        balloon.most_chains = MOST_CHAINS;
        balloon.set_target(self.target);
        for status in BEFORE_FEATURES {
            balloon.write_status(memory, status, &mut ()).map_err(refused)?;
        }
        balloon.negotiate(self.features & OFFERED).map_err(refused)?;
        balloon.write_status(memory, FEATURES_OK, &mut ()).map_err(refused)?;
        Ok(Running { balloon, queues: Default::default() })
    }

    /// Serves a queue that was kicked.
    fn kicked(&mut self, number: u16, vrings: &[VringRwLock]) -> Result<()> {
        let memory = self.memory.as_ref().ok_or_else(|| refused("no memory"))?.memory();
        // A queue that the features leave out is never served.
        let Some(kind) = Kind::of_number(self.features, number.into()) else { return Ok(()) };
        let vring = &vrings[usize::from(number)];
        let at = place_of(vring);
        if self.running.is_none() {
            self.running = Some(self.begin(&memory)?);
        }
        let running = self.running.as_mut().expect("it has begun");
        running.serve(&memory, kind, vring, at)
    }
}

impl Running {
    /// Starts a queue that isn't where it was, or was at another index, and serves what is available on it. DRIVER_OK looks at it, too.
    fn begin(&mut self, memory: &GuestMemoryMmap, kind: Kind, at: QueueStart) -> Result<Served> {
        if self.queues[kind as usize] != at {
            self.balloon.start_queue(memory, kind, at).map_err(refused)?;
        }
        match self.balloon.status() {
            FEATURES_OK => self.balloon.write_status(memory, DRIVER_OK, &mut ()).map_err(refused),
            _ => Ok(self.balloon.notify(memory, kind, &mut ())),
        }
    }

    /// Serves all that is available on a queue, and keeps where it resumes.
    fn serve(&mut self, memory: &GuestMemoryMmap, kind: Kind, vring: &VringRwLock, at: QueueStart) -> Result<()> {
        let mut served = self.begin(memory, kind, at)?;
        while served.more && served.stopped.is_none() {
            vring.signal_used_queue()?;
            served = self.balloon.notify(memory, kind, &mut ());
        }
        if served.interrupts != 0 {
            vring.signal_used_queue()?;
        }
        let next = self.balloon.state().next_index(kind).unwrap_or(at.next);
        self.queues[kind as usize] = QueueStart { next, ..at };
        vring.set_queue_next_avail(next);
        served.stopped.map_or(Ok(()), |why| Err(refused(why)))
    }
}

/// Where the front end has put a queue.
fn place_of(vring: &VringRwLock) -> QueueStart {
    let state = vring.get_ref();
    let queue = state.get_queue();
    let (table, avail, used) = (queue.desc_table(), queue.avail_ring(), queue.used_ring());
    QueueStart { table, avail, used, size: queue.size(), next: queue.next_avail() }
}

impl VhostUserBackendMut for Device {
    type Bitmap = ();
    type Vring = VringRwLock;

    fn num_queues(&self) -> usize {
        Kind::ALL.len()
    }

    fn max_queue_size(&self) -> usize {
        1024
    }

    fn features(&self) -> u64 {
        OFFERED | VhostUserVirtioFeatures::PROTOCOL_FEATURES.bits()
    }

    fn acked_features(&mut self, features: u64) {
        self.features = features;
        self.running = None;
    }

    fn protocol_features(&self) -> VhostUserProtocolFeatures {
        use VhostUserProtocolFeatures as Protocol;
        Protocol::MQ | Protocol::REPLY_ACK | Protocol::CONFIG | Protocol::RESET_DEVICE | Protocol::CONFIGURE_MEM_SLOTS
    }

    fn reset_device(&mut self) {
        self.running = None;
    }

    fn set_event_idx(&mut self, _: bool) {}

    fn get_config(&self, offset: u32, size: u32) -> Vec<u8> {
        let actual = self.running.as_ref().map_or(0, |it| it.balloon.actual());
        let whole = [self.target.to_le_bytes(), actual.to_le_bytes()].concat();
        (offset..offset + size).map(|at| whole.get(at as usize).copied().unwrap_or(0)).collect()
    }

    fn set_config(&mut self, offset: u32, bytes: &[u8]) -> Result<()> {
        match &mut self.running {
            Some(running) => running.balloon.write_config(offset, bytes).map_err(refused),
            None => Ok(()),
        }
    }

    fn update_memory(&mut self, memory: Memory) -> Result<()> {
        if let Some(running) = &mut self.running {
            running.balloon.set_memory(&*memory.memory()).map_err(refused)?;
        }
        self.memory = Some(memory);
        Ok(())
    }

    fn handle_event(&mut self, number: u16, _: EventSet, vrings: &[VringRwLock], _: usize) -> Result<()> {
        let served = self.kicked(number, vrings);
        if let Err(why) = &served {
            eprintln!("vhost_user_daemon: queue {number} is served no longer: {why}");
        }
        served
    }
}
