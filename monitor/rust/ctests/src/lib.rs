//! The calls of balloon.h by the Rust crate, so that its tests in C run over both. Not for a monitor: each call makes a
//! balloon of the state in the struct, which is all that a device is, and puts the state back.
//!
//! Each call requires what balloon.h says of its pointers.
#![allow(clippy::missing_safety_doc)]

mod answers;
mod memory;

use answers::{code_of, codes, state_code, Outcome, BAD_LENGTH, NOTHING, NO_QUEUE, OK};
use memory::Memory;
use std::io;
use std::os::raw::{c_int, c_void};
use vb_balloon::{Balloon, Cut, Denied, Kind, LiveMemory, Monitor, QueueStart, Refusal, Run, Served, Settings};
use vb_balloon::{Pause, State, Statistic};

const MOST_REGIONS: usize = 64;

type OnPages = unsafe extern "C" fn(*mut c_void, u32, *const Run, u32);
type OnStatistics = unsafe extern "C" fn(*mut c_void, *const Statistic, u32);
type OnHintId = unsafe extern "C" fn(*mut c_void, u32);
type OnDiscard = unsafe extern "C" fn(*mut c_void, *const Mapped, u64, u64) -> c_int;

/// `struct balloon_region`.
#[repr(C)]
#[derive(Clone, Copy)]
pub struct Mapped {
    guest: u64,
    length: u64,
    host: *mut u8,
    fd: c_int,
    offset: u64,
    page_size: u64,
}

/// `struct balloon`, without what is balloon.h's alone at its end.
#[repr(C)]
pub struct Struct {
    state: State,
    regions: *const Mapped,
    region_count: usize,
    places: [vb_balloon::Region; MOST_REGIONS],
    most_chains: u32,
    most_pages: u32,
    keeps_pages: bool,
    discards_apart: bool,
    context: *mut c_void,
    on_pages: Option<OnPages>,
    on_statistics: Option<OnStatistics>,
    on_hint_id: Option<OnHintId>,
    discard: Option<OnDiscard>,
    _copy: Option<extern "C" fn()>,       // the crate's memory copies by itself
    _on_written: Option<extern "C" fn()>, // and marks a bitmap
    ballooned: *mut u64,
    ballooned_words: usize,
    deflating: *mut u64,
    paused: [Pause; 2],
}

/// `VbSettings`.
#[repr(C)]
pub struct VbSettings {
    memory_end: u64,
    offered: u64,
    reserved_pages: u32,
    needs_must_tell: u8,
    skips_bad_pages: u8,
    holds_deflates: u8,
    discards_hints: u8,
}

/// The hooks of the struct.
struct Hooks<'a>(&'a Struct, &'a Memory);

impl Monitor for Hooks<'_> {
    fn pages(&mut self, kind: Kind, runs: &[Run]) {
        if let Some(tell) = self.0.on_pages {
            // SAFETY: the pointer is of a slice with its length.
            unsafe { tell(self.0.context, kind as u32, runs.as_ptr(), runs.len() as u32) }
        }
    }

    fn statistics(&mut self, figures: &[Statistic]) {
        if let Some(tell) = self.0.on_statistics {
            // SAFETY: the pointer is of a slice with its length.
            unsafe { tell(self.0.context, figures.as_ptr(), figures.len() as u32) }
        }
    }

    fn hint_id(&mut self, id: u32) {
        if let Some(tell) = self.0.on_hint_id {
            // SAFETY: the pointer is of a function of the struct.
            unsafe { tell(self.0.context, id) }
        }
    }

    fn page_size(&self, region: usize) -> u64 {
        self.1.mapped(region).page_size
    }

    fn discard(&mut self, memory: &dyn LiveMemory, cut: &Cut) -> io::Result<()> {
        match self.0.discard {
            None if self.1.is_shared(cut.region) => self.1.remove(cut),
            None => memory.discard(cut),
            // SAFETY: the pointer is of a region of the struct.
            Some(discard) => match unsafe { discard(self.0.context, self.1.mapped(cut.region), cut.offset, cut.length) } {
                0 => Ok(()),
                error => Err(io::Error::from_raw_os_error(error)),
            },
        }
    }

    fn discards_together(&self) -> bool {
        self.0.discard.is_none() && !self.1.has_shared()
    }
}

impl Struct {
    /// A balloon of this state, with its sets of pages.
    unsafe fn balloon(&self) -> Balloon {
        let mut balloon = Balloon::restore(self.state);
        balloon.most_chains = self.most_chains;
        balloon.most_pages = self.most_pages;
        balloon.keeps_pages = self.keeps_pages;
        balloon.discards_apart = self.discards_apart;
        *balloon.paused = self.paused.clone();
        if !self.ballooned.is_null() {
            balloon.ballooned = std::slice::from_raw_parts(self.ballooned, self.ballooned_words).to_vec();
        }
        if !self.deflating.is_null() {
            balloon.deflating = std::slice::from_raw_parts(self.deflating, self.ballooned_words).to_vec();
        }
        balloon
    }

    fn put_state(&mut self, balloon: &Balloon) {
        self.state = balloon.state();
        self.discards_apart = balloon.discards_apart;
        self.paused.clone_from(&balloon.paused);
    }

    unsafe fn put_back(&mut self, balloon: &Balloon) {
        self.put_state(balloon);
        if !self.ballooned.is_null() {
            balloon.ballooned.as_ptr().copy_to(self.ballooned, self.ballooned_words);
        }
        if !self.deflating.is_null() {
            balloon.deflating.as_ptr().copy_to(self.deflating, self.ballooned_words);
        }
    }

    unsafe fn memory(&self) -> Memory {
        Memory::new(self.regions, self.region_count)
    }

    /// Lets a balloon of this state do something over its memory.
    unsafe fn run<R>(&mut self, call: impl FnOnce(&mut Balloon, &Memory, &mut dyn Monitor) -> R) -> R {
        let (mut balloon, memory) = (self.balloon(), self.memory());
        let answer = call(&mut balloon, &memory, &mut Hooks(self, &memory));
        self.put_back(&balloon);
        answer
    }
}

#[no_mangle]
pub unsafe extern "C" fn balloon_init(it: &mut Struct, regions: *const Mapped, count: usize, settings: VbSettings) -> u32 {
    std::ptr::write_bytes(it, 0, 1);
    it.most_chains = 256;
    it.most_pages = u32::MAX;
    it.regions = regions;
    it.region_count = count;
    let settings = Settings {
        memory_end: settings.memory_end,
        offered: settings.offered,
        reserved_pages: settings.reserved_pages,
        needs_must_tell: settings.needs_must_tell != 0,
        skips_bad_pages: settings.skips_bad_pages != 0,
        holds_deflates: settings.holds_deflates != 0,
        discards_hints: settings.discards_hints != 0,
    };
    match Balloon::new(&Memory::new(regions, count), settings) {
        Err(why) => codes(why).0,
        Ok(balloon) => {
            it.put_back(&balloon);
            OK
        }
    }
}

#[no_mangle]
pub unsafe extern "C" fn balloon_set_regions(it: &mut Struct, regions: *const Mapped, count: usize) -> u32 {
    let mut balloon = it.balloon();
    let answer = balloon.set_memory(&Memory::new(regions, count));
    if answer.is_ok() {
        it.put_back(&balloon);
        it.regions = regions;
        it.region_count = count;
    }
    code_of(answer)
}

#[no_mangle]
pub unsafe extern "C" fn balloon_negotiate(it: &mut Struct, features: u64) -> u32 {
    it.run(|balloon, _, _| balloon.negotiate(features).map_or_else(|why| why.0, |()| 0))
}

#[no_mangle]
pub unsafe extern "C" fn balloon_place(it: &mut Struct, kind: u32, table: u64, avail: u64, used: u64, size: u16) -> u32 {
    match Kind::ALL.get(kind as usize) {
        None => NO_QUEUE,
        Some(&kind) => it.run(|balloon, memory, _| code_of(balloon.place(memory, kind, table, avail, used, size))),
    }
}

#[no_mangle]
pub unsafe extern "C" fn balloon_start_queue(it: &mut Struct, kind: u32, at: QueueStart) -> u32 {
    match Kind::ALL.get(kind as usize) {
        None => NO_QUEUE,
        Some(&kind) => it.run(|balloon, memory, _| code_of(balloon.start_queue(memory, kind, at))),
    }
}

#[no_mangle]
pub unsafe extern "C" fn balloon_stop_queue(it: &mut Struct, kind: u32, next: &mut u16) -> u32 {
    *next = 0;
    match Kind::ALL.get(kind as usize) {
        None => NO_QUEUE,
        Some(&kind) => code_of(it.run(|balloon, _, _| balloon.stop_queue(kind)).map(|index| *next = index)),
    }
}

#[no_mangle]
pub unsafe extern "C" fn balloon_forget_held(it: &mut Struct, kind: u32) -> u32 {
    match Kind::ALL.get(kind as usize) {
        None => NO_QUEUE,
        Some(&kind) => {
            if it.run(|balloon, _, _| balloon.forget_held(kind)) { OK } else { NOTHING }
        }
    }
}

#[no_mangle]
pub unsafe extern "C" fn balloon_held_deflate(it: &Struct, pages: &mut u32) -> bool {
    let held = it.balloon().held_deflate();
    *pages = held.unwrap_or(0);
    held.is_some()
}

#[no_mangle]
pub unsafe extern "C" fn balloon_give_deflate(it: &mut Struct) -> Outcome {
    Outcome::of(&it.run(|balloon, memory, _| balloon.give_deflate(memory)))
}

#[no_mangle]
pub unsafe extern "C" fn balloon_write_status(it: &mut Struct, status: u8, result: &mut Outcome) -> u32 {
    let answer = it.run(|balloon, memory, monitor| balloon.write_status(memory, status, monitor));
    *result = Outcome::of(answer.as_ref().unwrap_or(&Served::default()));
    answer.map_or_else(|Denied(why)| why, |_| 0)
}

#[no_mangle]
pub unsafe extern "C" fn balloon_notify(it: &mut Struct, kind: u32) -> Outcome {
    let served = match Kind::ALL.get(kind as usize) {
        None => Served { stopped: Some(Refusal::NoQueue), ..Served::default() },
        Some(&kind) => it.run(|balloon, memory, monitor| balloon.notify(memory, kind, monitor)),
    };
    Outcome::of(&served)
}

#[no_mangle]
pub unsafe extern "C" fn balloon_notify_number(it: &mut Struct, number: u32) -> Outcome {
    let kind = it.balloon().kind(number);
    balloon_notify(it, kind.map_or(u32::MAX, |kind| kind as u32))
}

#[no_mangle]
pub unsafe extern "C" fn balloon_ask_statistics(it: &mut Struct) -> Outcome {
    Outcome::of(&it.run(|balloon, memory, _| balloon.ask_statistics(memory)))
}

#[no_mangle]
pub unsafe extern "C" fn balloon_read_config(it: &Struct, offset: u32, out: *mut u8, length: usize) {
    it.balloon().read_config(offset, std::slice::from_raw_parts_mut(out, length));
}

#[no_mangle]
pub unsafe extern "C" fn balloon_write_config(it: &mut Struct, offset: u32, bytes: *const u8, length: usize) -> u32 {
    let bytes = std::slice::from_raw_parts(bytes, length);
    it.run(|balloon, _, _| code_of(balloon.write_config(offset, bytes)))
}

#[no_mangle]
pub unsafe extern "C" fn balloon_set_target(it: &mut Struct, pages: u32) {
    it.run(|balloon, _, _| balloon.set_target(pages));
}

#[no_mangle]
pub unsafe extern "C" fn balloon_begin_hints(it: &mut Struct, id: &mut u32) -> u32 {
    *id = 0;
    code_of(it.run(|balloon, _, _| balloon.begin_hints()).map(|begun| *id = begun))
}

#[no_mangle]
pub unsafe extern "C" fn balloon_stop_hints(it: &mut Struct) {
    it.run(|balloon, _, _| balloon.stop_hints());
}

#[no_mangle]
pub unsafe extern "C" fn balloon_end_hints(it: &mut Struct) {
    it.run(|balloon, _, _| balloon.end_hints());
}

#[no_mangle]
pub unsafe extern "C" fn balloon_is_off_target(it: &Struct) -> bool {
    it.balloon().is_off_target()
}

#[no_mangle]
pub unsafe extern "C" fn balloon_may_tell(it: &Struct) -> bool {
    it.balloon().may_tell()
}

#[no_mangle]
pub unsafe extern "C" fn balloon_save(it: &Struct, out: *mut u8, room: usize) -> u32 {
    match it.state.to_bytes() {
        Ok(bytes) if room >= bytes.len() => {
            out.copy_from(bytes.as_ptr(), bytes.len());
            OK
        }
        Ok(_) => BAD_LENGTH,
        Err(why) => state_code(why),
    }
}

#[no_mangle]
pub unsafe extern "C" fn balloon_restore(it: &mut Struct, bytes: *const u8, length: usize) -> u32 {
    match Balloon::restore_bytes(&it.memory(), std::slice::from_raw_parts(bytes, length)) {
        Err(why) => state_code(why),
        Ok(balloon) => {
            it.put_state(&balloon);
            OK
        }
    }
}
