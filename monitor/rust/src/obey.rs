//! What touches guest memory. The library decides which access is made, where, in which order, and what it means; this
//! obeys it: no bound is tested here and no sum is made, since each number comes from the library.

use crate::discards::{self, Together};
use crate::raw::{self, Notice, Region, Room};
use crate::{Kind, Served, PAGE};
use std::io;
use std::os::unix::io::AsRawFd;
use std::sync::atomic::{fence, Ordering};
use vm_memory::bitmap::BitmapSlice;
use vm_memory::{Address, AtomicAccess, Bytes, GuestMemory, GuestMemoryRegion, MemoryRegionAddress, VolatileSlice};

pub use crate::raw::{Cut, Run, Spot, Statistic};

/// Memory failed to do what its regions promise. Only a `GuestMemory` of a monitor's own may.
#[derive(Clone, Copy, Debug, PartialEq, Eq)]
pub struct Unreachable;

/// Guest memory that its guest may write at any moment. Any `GuestMemory` of `vm-memory` is one.
pub trait LiveMemory {
    /// Puts the regions into `out`, in the order of their numbers.
    fn regions(&self, out: &mut Vec<Region>);

    /// Reads a word of 16 bits, by one access.
    fn word(&self, at: Spot) -> Result<u16, Unreachable>;

    /// Copies the bytes from a place on, each read once.
    fn copy(&self, at: Spot, to: &mut [u8]) -> Result<(), Unreachable>;

    /// Writes a number of 32 bits.
    fn write_number(&self, at: Spot, number: u32) -> Result<(), Unreachable>;

    /// Writes a word of 16 bits, by one access.
    fn write_word(&self, at: Spot, word: u16) -> Result<(), Unreachable>;

    /// What was done before stays before what is done after, as far as this order says.
    fn fence(&self, order: Ordering) {
        fence(order);
    }

    /// Gives pages back to the machine: by a hole in the region's file, which is shared, or else as private memory, which
    /// reads as zeros from then on. Else the system's answer; `InvalidInput` where the part doesn't lie in its region, or
    /// elsewhere in that one's file.
    fn discard(&self, cut: &Cut) -> io::Result<()>;

    /// Gives the first of these parts back by one call, those of private memory, each of pages of 4,096 bytes. A part that
    /// it doesn't discard is handed to [`discard`](LiveMemory::discard). By default none is asked for.
    fn discard_together(&self, _cuts: &[Cut]) -> Together {
        Together::default()
    }
}

fn region_of<M: GuestMemory>(memory: &M, number: usize) -> Result<&M::R, Unreachable> {
    memory.iter().nth(number).ok_or(Unreachable)
}

fn load<M: GuestMemory, T: AtomicAccess>(memory: &M, at: Spot) -> Result<T, Unreachable> {
    region_of(memory, at.region)?.load(MemoryRegionAddress(at.offset), Ordering::Relaxed).map_err(|_| Unreachable)
}

fn store<M: GuestMemory, T: AtomicAccess>(memory: &M, at: Spot, value: T) -> Result<(), Unreachable> {
    let region = region_of(memory, at.region)?;
    region.store(value, MemoryRegionAddress(at.offset), Ordering::Relaxed).map_err(|_| Unreachable)
}

/// The region of a part that lies in it and in its file, also where a monitor has made the part itself.
pub(crate) fn region_with<'a, M: GuestMemory>(memory: &'a M, cut: &Cut) -> Option<&'a M::R> {
    let (region, end) = (region_of(memory, cut.region).ok()?, cut.offset.checked_add(cut.length)?);
    let in_file = region.file_offset().map_or(0, |file| file.start()).checked_add(cut.offset);
    (end <= region.len() && in_file == Some(cut.in_file)).then(|| region)
}

/// Copies bytes that others may write meanwhile: each is read once, in words where they are aligned.
fn read_once<B: BitmapSlice>(bytes: &VolatileSlice<B>, to: &mut [u8]) -> Result<(), Unreachable> {
    let mut at = 0;
    while at < to.len() {
        if let Ok(word) = bytes.load::<u64>(at, Ordering::Relaxed) {
            to[at..at + 8].copy_from_slice(&word.to_ne_bytes());
            at += 8;
        } else {
            to[at] = bytes.load(at, Ordering::Relaxed).map_err(|_| Unreachable)?;
            at += 1;
        }
    }
    Ok(())
}

/// The system's answer to a call, once it isn't interrupted.
fn answer_of(call: impl Fn() -> libc::c_int) -> io::Result<()> {
    loop {
        if call() == 0 {
            return Ok(());
        }
        let error = io::Error::last_os_error();
        if error.kind() != io::ErrorKind::Interrupted {
            return Err(error);
        }
    }
}

impl<M: GuestMemory> LiveMemory for M {
    fn regions(&self, out: &mut Vec<Region>) {
        out.clear();
        out.extend(self.iter().map(|it| Region {
            guest: it.start_addr().raw_value(),
            length: it.len(),
            in_file: it.file_offset().map_or(0, |file| file.start()),
        }));
    }

    fn word(&self, at: Spot) -> Result<u16, Unreachable> {
        load::<M, u16>(self, at).map(u16::from_le)
    }

    fn copy(&self, at: Spot, to: &mut [u8]) -> Result<(), Unreachable> {
        let region = region_of(self, at.region)?;
        read_once(&region.get_slice(MemoryRegionAddress(at.offset), to.len()).map_err(|_| Unreachable)?, to)
    }

    fn write_number(&self, at: Spot, number: u32) -> Result<(), Unreachable> {
        store(self, at, number.to_le())
    }

    fn write_word(&self, at: Spot, word: u16) -> Result<(), Unreachable> {
        store(self, at, word.to_le())
    }

    fn discard(&self, cut: &Cut) -> io::Result<()> {
        let gone = || io::Error::from(io::ErrorKind::InvalidInput);
        let region = region_with(self, cut).ok_or_else(gone)?;
        if let Some(file) = region.file_offset() {
            let (file, how) = (file.file().as_raw_fd(), libc::FALLOC_FL_PUNCH_HOLE | libc::FALLOC_FL_KEEP_SIZE);
            // SAFETY: the call takes no pointer; the file is the region's.
            return answer_of(|| unsafe { libc::fallocate(file, how, cut.in_file as i64, cut.length as i64) });
        }
        let host = region.get_host_address(MemoryRegionAddress(cut.offset)).map_err(|_| gone())?;
        // SAFETY: the bytes lie in the region, which is mapped while it is borrowed, and are the guest's: a reader of
        // them expects any value at any time.
        answer_of(|| unsafe { libc::madvise(host.cast(), cut.length as usize, libc::MADV_DONTNEED) })
    }

    fn discard_together(&self, cuts: &[Cut]) -> Together {
        discards::discard_together(self, cuts)
    }
}

/// What a monitor may want to know, or to do in its own way. `()` does nothing of its own.
///
/// A hook can't call the balloon, which is borrowed until the notice has ended: do so once it has.
/// ```compile_fail
/// # use vb_balloon::{Balloon, Kind, LiveMemory, Monitor, Run};
/// struct Ending<'a>(&'a mut Balloon);
/// impl Monitor for Ending<'_> {
///     fn pages(&mut self, _kind: Kind, _runs: &[Run]) {
///         self.0.end_hints();
///     }
/// }
/// fn kicked(balloon: &mut Balloon, memory: &dyn LiveMemory) {
///     balloon.notify(memory, Kind::Hint, &mut Ending(balloon));
/// }
/// ```
pub trait Monitor {
    /// These pages are given up (inflate) or free (report, hint), before any of them is discarded; or they are requested back
    /// (deflate). A driver may take hinted pages back at any time, by writing to them.
    /// It is called once for each portion of 256 numbers of a request, which is given back once, after the last portion.
    fn pages(&mut self, _kind: Kind, _runs: &[Run]) {}

    /// The guest told its statistics, any tags in any order.
    fn statistics(&mut self, _figures: &[Statistic]) {}

    /// The driver sent this id of hints: a round of hints begins with its own, and ends with any other one.
    fn hint_id(&mut self, _id: u32) {}

    /// Bytes of the pages of the machine that back the region of this number: a power of two from 4096 to 1 GiB; 0 is
    /// 4096. A larger page is discarded once all of it is given up.
    fn page_size(&self, _region: usize) -> u64 {
        0
    }

    /// Discards whole pages of a region, of its `page_size`; an error where the machine keeps them.
    fn discard(&mut self, memory: &dyn LiveMemory, cut: &Cut) -> io::Result<()> {
        memory.discard(cut)
    }

    /// Whether scattered pages of private memory are discarded by one call, which takes a quarter of the time, and not by
    /// `discard`: say so where you have none of your own. By default each part is handed to `discard`.
    fn discards_together(&self) -> bool {
        false
    }
}

impl Monitor for () {
    fn discards_together(&self) -> bool {
        true
    }
}

/// What a notice is carried out on.
pub(crate) struct Hands<'a> {
    pub memory: &'a dyn LiveMemory,
    pub monitor: &'a mut dyn Monitor,
    /// The set of the pages in the balloon; empty where none is kept.
    pub ballooned: &'a mut [u64],
    /// The set of the pages of the deflate that is held.
    pub deflating: &'a mut [u64],
    /// The kernel doesn't take parts of private memory together.
    pub discards_apart: &'a mut bool,
    /// Pages are to stay, also those of a notice that began before.
    pub keeps_pages: bool,
    pub balloon: &'a mut raw::Balloon,
    pub regions: &'a [Region],
    pub served: Served,
}

impl Hands<'_> {
    /// Tells the pages that are named, and keeps the set of those in the balloon: those of a deflate that is held stay in it.
    fn tell_pages(&mut self, notice: &Notice, room: &Room) {
        let runs = &room.runs[..notice.runs as usize];
        self.served.pages += u64::from(notice.pages);
        let skipped = if notice.kind == raw::HINT { &mut self.served.late } else { &mut self.served.skipped };
        *skipped += u64::from(notice.skipped);
        self.served.kept += u64::from(notice.kept);
        if !self.ballooned.is_empty() {
            let marked = match notice.waits {
                0 => raw::mark(notice.kind, runs, self.ballooned),
                _ => raw::mark(raw::INFLATE, runs, self.deflating), // what waits is put into its set
            };
            self.served.marked += if notice.waits == 0 { marked.pages } else { 0 };
            self.served.unmarked += if marked.code == raw::BAD_ARGUMENT { u64::from(notice.pages) } else { 0 };
        }
        let some = !runs.is_empty() || notice.kind != raw::HINT;
        if let Some(kind) = Kind::of(notice.kind).filter(|_| some) {
            self.monitor.pages(kind, runs);
        }
    }

    /// Discards a part; where the machine's pages are large, those that are given up whole.
    fn discard(&mut self, part: &Cut) {
        let large = match self.monitor.page_size(part.region) {
            0 => raw::Large { cut: *part, waiting: 0 },
            size => raw::large_pages(&self.balloon.device, &self.regions[part.region], size, part, self.ballooned),
        };
        let pages = part.length / PAGE - large.waiting;
        self.served.waiting += large.waiting;
        if large.cut.length == 0 {
            return;
        }
        match self.monitor.discard(self.memory, &large.cut) {
            Ok(()) => self.served.discarded += pages,
            Err(error) => {
                self.served.kept += pages;
                self.served.error = error.raw_os_error().or(self.served.error);
            }
        }
    }

    /// Discards the first parts by one call, where they lie in private memory of small pages; returns how many. Where the
    /// kernel doesn't take them whole, each part is discarded alone from then on.
    fn discard_together(&mut self, cuts: &[Cut]) -> usize {
        if *self.discards_apart || cuts.len() < 2 || !self.monitor.discards_together() {
            return 0;
        }
        let small = cuts.iter().take_while(|it| self.monitor.page_size(it.region) <= PAGE).count();
        let together = self.memory.discard_together(&cuts[..small]);
        *self.discards_apart = together.discarded < together.asked;
        let count = together.discarded.min(small); // a memory of the monitor's own may say more
        self.served.discarded += cuts[..count].iter().map(|it| it.length / PAGE).sum::<u64>();
        count
    }

    /// Discards all parts, in their order, unless they are to stay.
    fn discard_all(&mut self, cuts: &[Cut]) {
        if self.keeps_pages {
            self.served.kept += cuts.iter().map(|it| it.length / PAGE).sum::<u64>();
            return;
        }
        let together = self.discard_together(cuts);
        cuts[together..].iter().for_each(|cut| self.discard(cut));
    }

    /// Publishes a used element: its two numbers, the fence, then the index.
    fn give_back(&mut self, notice: &Notice) -> Result<(), Unreachable> {
        self.memory.write_number(notice.id_at, notice.id)?;
        self.memory.write_number(notice.length_at, notice.used_length)?;
        self.memory.fence(Ordering::Release);
        self.memory.write_word(notice.index_at, notice.used_index)
    }

    /// Does each thing that is to be done, in the order of the bits of `what`; answers the word that was read, if one was.
    fn perform(&mut self, notice: &Notice, room: &mut Room) -> Result<u16, Unreachable> {
        let is_asked = |bit| notice.what & bit != 0;
        let mut answer = 0;
        if is_asked(raw::TELL_PAGES) {
            self.tell_pages(notice, room);
        }
        if is_asked(raw::TELL_FIGURES) {
            self.monitor.statistics(&room.figures[..notice.figures as usize]);
            self.served.chains += 1;
        }
        if is_asked(raw::TELL_ID) {
            self.monitor.hint_id(notice.hint_id);
        }
        if is_asked(raw::DISCARD) {
            self.discard_all(&room.cuts[..notice.cuts as usize]);
        }
        if is_asked(raw::GIVE_BACK) {
            self.give_back(notice)?;
            self.served.chains += 1;
        }
        if is_asked(raw::ACQUIRE) {
            self.memory.fence(Ordering::Acquire);
        }
        if is_asked(raw::FULL_FENCE) {
            self.memory.fence(Ordering::SeqCst);
        }
        if is_asked(raw::READ) {
            answer = self.memory.word(notice.at)?;
        }
        if is_asked(raw::COPY) {
            let into = notice.into as usize;
            self.memory.copy(notice.at, &mut room.bytes[into..into + notice.length as usize])?;
        }
        Ok(answer)
    }

    /// Obeys until the notice has ended, or pauses.
    pub fn obey(&mut self, notice: &mut Notice, room: &mut Room) -> Result<(), Unreachable> {
        while notice.what != 0 {
            let answer = self.perform(notice, room)?;
            if notice.what & raw::PAUSE != 0 {
                break;
            }
            raw::go_on(notice, self.balloon, self.regions, room, answer);
        }
        Ok(())
    }
}
