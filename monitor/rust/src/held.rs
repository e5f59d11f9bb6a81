//! The chains that a balloon holds: a buffer of statistics, and a deflate until it is granted.

use crate::obey::LiveMemory;
use crate::settings::{Kind, Refusal};
use crate::{raw, Balloon, Served};

impl Balloon {
    /// Asks for new statistics, by giving the buffer back (VIRTIO 1.1, 5.5.6.3); `Monitor::statistics` comes at a later
    /// notice. No chain is served where the driver has the buffer.
    pub fn ask_statistics(&mut self, memory: &dyn LiveMemory) -> Served {
        memory.regions(&mut self.regions);
        raw::give_held(&mut self.notice, &mut self.state.0, &self.regions, &mut self.room, raw::STATISTICS);
        self.finish(memory, &mut ())
    }

    /// How many pages the deflate names that is held, if one is.
    pub fn held_deflate(&self) -> Option<u32> {
        let mut pages = 0;
        // SAFETY: the pointers are of a `&` and of a `&mut`.
        match unsafe { raw::vb_held(&self.state.0, raw::DEFLATE, &mut pages) } {
            raw::OK => Some(pages),
            _ => None,
        }
    }

    /// Forgets the chain that is held of this queue, which isn't given back; whether one was. The pages of a deflate stay in the
    /// set.
    pub fn forget_held(&mut self, kind: Kind) -> bool {
        // SAFETY: the pointer is of a `&mut`.
        let forgot = unsafe { raw::vb_forget_held(&mut self.state.0, kind as u32) == raw::OK };
        if forgot {
            self.forget_chain(kind);
        }
        forgot
    }

    /// Grants the deflate that is held (VIRTIO 1.1, 5.5.6): the set loses its pages (`marked`), and then its chain is given back.
    /// No chain is served where none is held; `BadArgument` where a set is kept, and `deflating` has none of its pages, and then
    /// nothing is changed. Notify the queue again then, as its kicks did nothing meanwhile.
    pub fn give_deflate(&mut self, memory: &dyn LiveMemory) -> Served {
        let named = match self.held_deflate() {
            None => return Served::default(),
            Some(named) => named,
        };
        if !self.ballooned.is_empty() && named > 0 && raw::count_ballooned(&self.deflating) == 0 {
            return Served { stopped: Some(Refusal::BadArgument), ..Served::default() };
        }
        let marked = raw::unmark(&self.deflating, &mut self.ballooned);
        memory.regions(&mut self.regions);
        raw::give_held(&mut self.notice, &mut self.state.0, &self.regions, &mut self.room, raw::DEFLATE);
        let served = self.finish(memory, &mut ());
        if served.stopped.is_none() {
            self.forget_chain(Kind::Deflate);
        }
        Served { marked, ..served }
    }

    /// What was held of this queue is held no longer, and no notice of it continues.
    pub(crate) fn forget_chain(&mut self, kind: Kind) {
        self.forget_pause(kind);
        if kind == Kind::Deflate {
            self.deflating.fill(0);
        }
    }
}
