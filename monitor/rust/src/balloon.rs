//! The calls of a monitor.

use crate::obey::{Hands, LiveMemory, Monitor};
use crate::pause::Pause;
use crate::settings::{features, refusal, Denied, Kind, Refusal, Settings};
use crate::state::{state_error, State, StateError};
use crate::{raw, QueueStart, Served, PAGE};

/// A balloon device. Guests may write to their memory during any call.
pub struct Balloon {
    pub(crate) state: State,
    pub(crate) regions: Vec<raw::Region>,
    pub(crate) notice: raw::Notice,
    pub(crate) room: Box<raw::Room>,
    /// A notice begins no further chain after this many: 256 at first.
    pub most_chains: u32,
    /// A notice begins no further chain after this many pages, and pauses amid one after this many numbers, at the end of a portion: any
    /// number at first.
    pub most_pages: u32,
    /// No page is discarded, as under a passed-through device: what is named is told, and stays, also what is left of a request
    /// that pauses. Not so at first.
    pub keeps_pages: bool,
    /// Each part of private memory is discarded by a call of its own: so once the kernel didn't take several, as one before
    /// Linux 6.13. Not so at first.
    pub discards_apart: bool,
    /// The set of the pages in the balloon, where it has words: page p is bit p % 64 of word p / 64. Make it of zeros, for all
    /// pages ([`Balloon::words_of_set`]), before DRIVER_OK; a reset empties it. Save it beside the state.
    pub ballooned: Vec<u64>,
    /// The set of the pages of the deflate that is held, where the settings say `holds_deflates`: as many words as `ballooned`, zeros
    /// at first. They leave that set once the deflate is granted. Save it beside that set.
    pub deflating: Vec<u64>,
    /// The notices that pause, of inflates and of deflates.
    pub paused: Box<[Pause; 2]>,
}

impl Balloon {
    /// A balloon that waits for its driver.
    ///
    /// # Errors
    /// `BadArgument` where the settings or the end of memory are out of range, or a region isn't whole pages.
    pub fn new(memory: &dyn LiveMemory, settings: Settings) -> Result<Balloon, Refusal> {
        let settings = raw::Settings {
            memory_end: settings.memory_end,
            offered: settings.offered,
            reserved_pages: settings.reserved_pages,
            needs_must_tell: settings.needs_must_tell.into(),
            skips_bad_pages: settings.skips_bad_pages.into(),
            holds_deflates: settings.holds_deflates.into(),
            discards_hints: settings.discards_hints.into(),
        };
        let mut balloon = Balloon::restore(State(raw::Balloon::default()));
        let (state, regions) = balloon.look_at(memory);
        // SAFETY: the pointers are of a `&mut` and of a slice with its length.
        match unsafe { raw::vb_new_over(state, settings, regions.as_ptr(), regions.len()) } {
            raw::OK => Ok(balloon),
            code => Err(refusal(code, 0)),
        }
    }

    /// A balloon that continues another one's state.
    pub fn restore(state: State) -> Balloon {
        Balloon {
            state,
            regions: Vec::new(),
            notice: raw::Notice::default(),
            room: Box::default(),
            most_chains: 256,
            most_pages: u32::MAX,
            keeps_pages: false,
            discards_apart: false,
            ballooned: Vec::new(),
            deflating: Vec::new(),
            paused: Box::default(),
        }
    }

    /// A balloon that continues the state that was saved as these bytes ([`State::to_bytes`]), over guest memory
    /// that holds its queues.
    ///
    /// # Errors
    /// Why they aren't a saved state, or `Misplaced`.
    pub fn restore_bytes(memory: &dyn LiveMemory, bytes: &[u8]) -> Result<Balloon, StateError> {
        let offered = features::VERSION_1;
        let any = Settings { offered, ..Settings::default() };
        let mut balloon = Balloon::new(memory, any).map_err(|_| StateError::Misplaced)?;
        let (state, regions) = balloon.look_at(memory);
        // SAFETY: the pointers are of a `&mut`, and of slices with their lengths.
        match unsafe { raw::vb_restore_over(state, regions.as_ptr(), regions.len(), bytes.as_ptr(), bytes.len()) } {
            raw::OK => Ok(balloon),
            code => Err(state_error(code)),
        }
    }

    /// Guest memory was remapped, and ends elsewhere. A driver whose rings lay elsewhere has to reset the device.
    ///
    /// # Errors
    /// `BadArgument` where no device has such memory; nothing is changed.
    pub fn set_memory(&mut self, memory: &dyn LiveMemory) -> Result<(), Refusal> {
        let (state, regions) = self.look_at(memory);
        // SAFETY: the pointers are of a `&mut` and of a slice with its length.
        match unsafe { raw::vb_set_regions(state, regions.as_ptr(), regions.len()) } {
            raw::OK => Ok(()),
            code => Err(refusal(code, 0)),
        }
    }

    /// All that the device is.
    pub fn state(&self) -> State {
        self.state
    }

    /// The status register.
    pub fn status(&self) -> u8 {
        self.state.0.device.status
    }

    /// How many pages the driver told last.
    pub fn actual(&self) -> u32 {
        self.state.0.device.actual
    }

    /// Sets the balloon's target to `pages` pages: notify the driver of a configuration change then.
    pub fn set_target(&mut self, pages: u32) {
        // SAFETY: the pointer is of a `&mut`.
        unsafe { raw::vb_set_target(&mut self.state.0.device, pages) }
    }

    /// Whether the driver has another number of pages in its balloon than the host wants: tell it again, seldom.
    pub fn is_off_target(&self) -> bool {
        self.state.0.device.actual != self.state.0.device.target
    }

    /// Whether the driver may be told of a change of configuration: it reads its configuration as it starts.
    pub fn may_tell(&self) -> bool {
        // SAFETY: the pointer is of a `&`.
        unsafe { raw::vb_may_tell(&self.state.0.device) != 0 }
    }

    /// How many words the set of ballooned pages needs for all of memory.
    pub fn words_of_set(&self) -> usize {
        let pages = self.state.0.device.settings.memory_end / PAGE;
        (pages / 64 + u64::from(pages % 64 != 0)) as usize
    }

    /// Whether a page is in the balloon, where a set is kept.
    pub fn is_ballooned(&self, page: u32) -> bool {
        // SAFETY: the pointer is of a slice with its length.
        unsafe { raw::vb_is_ballooned(self.ballooned.as_ptr(), self.ballooned.len(), page) != 0 }
    }

    /// How many pages are in the balloon, where a set is kept.
    pub fn count_ballooned(&self) -> u64 {
        raw::count_ballooned(&self.ballooned)
    }

    /// The driver writes the status. At DRIVER_OK each queue is looked at, as Linux fills its statistics buffer before.
    ///
    /// # Errors
    /// The number of vb_write_status; nothing is changed.
    pub fn write_status(
        &mut self,
        memory: &dyn LiveMemory,
        status: u8,
        monitor: &mut dyn Monitor,
    ) -> Result<Served, Denied> {
        let mut then = 0;
        // SAFETY: the pointers are of two `&mut`.
        match unsafe { raw::vb_set_status(&mut self.state.0, status, &mut then) } {
            0 => {}
            why => return Err(Denied(why)),
        }
        if then & raw::EMPTY != 0 {
            self.ballooned.fill(0);
            self.deflating.fill(0);
            self.paused = Box::default();
        }
        let mut all = Served::default();
        if then & raw::LOOK != 0 {
            Kind::ALL.iter().for_each(|kind| all.add(&self.notify(memory, *kind, monitor)));
        }
        Ok(all)
    }

    /// The driver writes its features.
    ///
    /// # Errors
    /// The number of vb_negotiate; nothing is changed.
    pub fn negotiate(&mut self, features: u64) -> Result<(), Denied> {
        // SAFETY: the pointer is of a `&mut`.
        match unsafe { raw::vb_negotiate(&mut self.state.0.device, features) } {
            0 => Ok(()),
            why => Err(Denied(why)),
        }
    }

    /// What the queue of this number is for, by the negotiated features.
    pub fn kind(&self, number: u32) -> Option<Kind> {
        // SAFETY: the pointer is of a `&`.
        Kind::of(unsafe { raw::vb_kind(&self.state.0.device, number) })
    }

    /// The driver gives a queue its place.
    ///
    /// # Errors
    /// As vb_place, and `Misplaced` where a part lies in a hole; nothing is changed.
    pub fn place(
        &mut self,
        memory: &dyn LiveMemory,
        kind: Kind,
        table: u64,
        avail: u64,
        used: u64,
        size: u16,
    ) -> Result<(), Refusal> {
        let (state, regions) = self.look_at(memory);
        let (kind, count, at) = (kind as u32, regions.len(), raw::QueuePlace { table, avail, used, size });
        // SAFETY: the pointers are of a `&mut` and of a slice with its length.
        match unsafe { raw::vb_place_over(state, regions.as_ptr(), count, kind, at) } {
            raw::OK => Ok(()),
            code => Err(refusal(code, 0)),
        }
    }

    /// Starts a queue at an index, in place of what it was before, from FEATURES_OK on: the chains before the index were given
    /// back, and none is taken. What is held of it is forgotten.
    ///
    /// # Errors
    /// As vb_start_queue; nothing is changed.
    pub fn start_queue(&mut self, memory: &dyn LiveMemory, kind: Kind, at: QueueStart) -> Result<(), Refusal> {
        let (state, regions) = self.look_at(memory);
        // SAFETY: the pointers are of a `&mut` and of a slice with its length.
        match unsafe { raw::vb_start_queue(state, regions.as_ptr(), regions.len(), kind as u32, at) } {
            raw::OK => {
                self.forget_chain(kind);
                Ok(())
            }
            code => Err(refusal(code, 0)),
        }
    }

    /// Stops a queue, at any status, which has no place any longer: the index at which it was, where a chain that was taken and
    /// not given back, as one that is held, is available again. What is held of it is forgotten.
    ///
    /// # Errors
    /// `Misplaced` where it has no place; nothing is changed.
    pub fn stop_queue(&mut self, kind: Kind) -> Result<u16, Refusal> {
        let mut next = 0;
        // SAFETY: the pointers are of two `&mut`.
        match unsafe { raw::vb_stop_queue(&mut self.state.0, kind as u32, &mut next) } {
            raw::OK => {
                self.forget_chain(kind);
                Ok(next)
            }
            code => Err(refusal(code, 0)),
        }
    }

    /// The driver reads its configuration space.
    pub fn read_config(&self, offset: u32, out: &mut [u8]) {
        // SAFETY: the pointers are of a `&` and of a slice with its length.
        unsafe { raw::vb_read_config(&self.state.0.device, offset, out.as_mut_ptr(), out.len()) }
    }

    /// The driver writes its configuration space: those of `actual`, and of `poison_val` where it is offered, are written that the
    /// bytes cover whole. All other bytes are ignored.
    ///
    /// # Errors
    /// `BadArgument` where they cover neither; nothing is changed.
    pub fn write_config(&mut self, offset: u32, bytes: &[u8]) -> Result<(), Refusal> {
        // SAFETY: the pointers are of a `&mut` and of a slice with its length.
        match unsafe { raw::vb_write_config(&mut self.state.0.device, offset, bytes.as_ptr(), bytes.len()) } {
            raw::OK => Ok(()),
            code => Err(refusal(code, 0)),
        }
    }

    /// Whether the pages of a report keep what is in them, and aren't discarded: the driver negotiated PAGE_POISON, and its
    /// free pages hold something else than zeros.
    pub fn keeps_reports(&self) -> bool {
        self.state.0.keeps_reports()
    }

    /// The driver kicked this queue: serves what is available, at most as much as a notice may, and continues the notice of this
    /// queue that pauses. Take the kick before: what the driver publishes meanwhile waits for its next one.
    pub fn notify(&mut self, memory: &dyn LiveMemory, kind: Kind, monitor: &mut dyn Monitor) -> Served {
        let budget = (self.most_chains, self.most_pages, self.keeps_pages);
        memory.regions(&mut self.regions);
        if !self.continue_paused(kind) {
            raw::begin(&mut self.notice, &mut self.state.0, &self.regions, &mut self.room, kind as u32, budget);
        }
        self.finish(memory, monitor)
    }

    /// Obeys a notice that has begun; what it came to, or has until it pauses.
    pub(crate) fn finish(&mut self, memory: &dyn LiveMemory, monitor: &mut dyn Monitor) -> Served {
        let Balloon { state, regions, notice, room, discards_apart, ballooned, deflating, .. } = self;
        let (balloon, keeps_pages, served) = (&mut state.0, self.keeps_pages, Served::default());
        let mut hands =
            Hands { memory, monitor, ballooned, deflating, discards_apart, keeps_pages, balloon, regions, served };
        let obeyed = hands.obey(notice, room);
        let mut served = hands.served;
        if notice.kind != Kind::Deflate as u32 {
            served.in_holes = served.pages - served.discarded - served.kept - served.waiting;
        }
        if obeyed.is_err() {
            served.stopped = Some(Refusal::Unreachable);
            return served;
        }
        if self.keep_pause() {
            return Served { more: true, ..served };
        }
        self.say_end(served)
    }

    /// What a notice came to that has ended.
    fn say_end(&self, served: Served) -> Served {
        let notice = &self.notice;
        let holds = notice.taken != 0 && notice.given == 0 && notice.code == raw::OK && notice.kind == raw::DEFLATE;
        Served {
            stopped: match notice.code {
                raw::OK | raw::NOTHING => None,
                code => Some(refusal(code, notice.rule)),
            },
            interrupts: notice.interrupt << (notice.kind & 7),
            configuration: notice.configuration != 0,
            more: notice.more != 0,
            held: holds.then(|| notice.taken_pages),
            ..served
        }
    }

    /// The state, and the regions of memory as it is now.
    fn look_at(&mut self, memory: &dyn LiveMemory) -> (&mut raw::Balloon, &[raw::Region]) {
        memory.regions(&mut self.regions);
        (&mut self.state.0, &self.regions)
    }
}
