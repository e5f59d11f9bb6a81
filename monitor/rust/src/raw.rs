//! The library's headers as bindgen has them (`rust/bind`), and safe calls over slices. Each call requires what the headers say of
//! pointers with lengths, and nothing else.

// All that the headers have, whether this crate needs it or not, and by C's names of types.
#[allow(dead_code, non_camel_case_types)]
mod bindings;

pub use bindings::*;

impl Balloon {
    /// Whether the pages of a report keep what is in them.
    pub fn keeps_reports(&self) -> bool {
        // SAFETY: the pointer is of a `&`.
        unsafe { vb_keeps_reports(&self.device) != 0 }
    }
}

/// The kind of the queue of this number, with these features.
pub fn kind_of(features: u64, number: u32) -> u32 {
    // SAFETY: it has no pointers.
    unsafe { vb_kind_of(features, number) }
}

/// Puts the pages of runs into a set, or takes them out.
pub fn mark(kind: u32, runs: &[Run], set: &mut [u64]) -> Marked {
    // SAFETY: the pointers are of slices with their lengths.
    unsafe { vb_mark(kind, runs.as_ptr(), runs.len(), set.as_mut_ptr(), set.len()) }
}

/// Takes the pages of one set out of another: how many left it.
pub fn unmark(pages: &[u64], set: &mut [u64]) -> u64 {
    // SAFETY: the pointers are of slices with their lengths.
    unsafe { vb_unmark(pages.as_ptr(), pages.len(), set.as_mut_ptr(), set.len()) }
}

/// How many pages are in a set.
pub fn count_ballooned(set: &[u64]) -> u64 {
    // SAFETY: the pointer is of a slice with its length.
    unsafe { vb_count_ballooned(set.as_ptr(), set.len()) }
}

/// Of a part that is given up, what goes back to a machine whose pages have this size.
pub fn large_pages(device: &Device, region: &Region, page_size: u64, part: &Cut, set: &[u64]) -> Large {
    // SAFETY: the pointers are of `&`, and of a slice with its length.
    unsafe { vb_large_pages(device, region, page_size, part, set.as_ptr(), set.len()) }
}

/// Begins a pass over a queue, with bounds on its chains and pages, and whether it keeps all pages.
pub fn begin(
    notice: &mut Notice,
    balloon: &mut Balloon,
    regions: &[Region],
    room: &mut Room,
    kind: u32,
    budget: (u32, u32, bool),
) {
    let (chains, pages, keeps) = budget;
    // SAFETY: the pointers are of `&mut`, and of a slice with its length.
    unsafe { vb_begin(notice, balloon, regions.as_ptr(), regions.len(), room, kind, chains, pages, keeps.into()) };
}

/// Begins to give the chain back that is held of this queue.
pub fn give_held(notice: &mut Notice, balloon: &mut Balloon, regions: &[Region], room: &mut Room, kind: u32) {
    // SAFETY: the pointers are of `&mut`, and of a slice with its length.
    unsafe { vb_give_held(notice, balloon, regions.as_ptr(), regions.len(), room, kind) };
}

/// Says what is to be done next.
pub fn go_on(notice: &mut Notice, balloon: &mut Balloon, regions: &[Region], room: &mut Room, answer: u16) {
    // SAFETY: the pointers are of `&mut`, and of a slice with its length.
    unsafe { vb_go_on(notice, balloon, regions.as_ptr(), regions.len(), room, answer) };
}
