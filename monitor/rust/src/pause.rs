//! Notices that pause amid a chain: other queues are served before such a notice continues.

use crate::raw::{self, Notice, Piece, Region, Room};
use crate::settings::Kind;
use crate::Balloon;

/// A notice that pauses, if one does, and the pieces of its chain: plain data, which a saved state doesn't have. Without it the chain
/// begins again from its first number.
#[repr(C)]
#[derive(Clone)]
pub struct Pause {
    notice: Notice,
    pieces: [Piece; raw::MAX_PIECES as usize],
}

impl Default for Pause {
    fn default() -> Pause {
        Pause { notice: Notice::default(), pieces: [Piece::default(); raw::MAX_PIECES as usize] }
    }
}

impl Pause {
    /// Whether a notice pauses.
    fn is_some(&self) -> bool {
        self.notice.what != 0
    }

    /// Keeps a notice that pauses.
    fn keep(&mut self, notice: &Notice, room: &Room) {
        self.notice = *notice;
        self.pieces = room.pieces;
    }

    /// Puts the notice where it resumes, and resumes it.
    fn go_on(&mut self, notice: &mut Notice, balloon: &mut raw::Balloon, regions: &[Region], room: &mut Room) {
        *notice = std::mem::take(&mut self.notice);
        room.pieces = self.pieces;
        raw::go_on(notice, balloon, regions, room, 0);
    }
}

impl Balloon {
    /// Keeps the notice, if it pauses; whether it does.
    pub(crate) fn keep_pause(&mut self) -> bool {
        let pauses = self.notice.what & raw::PAUSE != 0;
        if pauses {
            self.paused[self.notice.kind as usize].keep(&self.notice, &self.room);
        }
        pauses
    }

    /// Continues the notice of this queue that pauses; whether one does, and its device is the same yet.
    pub(crate) fn continue_paused(&mut self, kind: Kind) -> bool {
        let Balloon { state, regions, notice, room, paused, .. } = self;
        match paused.get_mut(kind as usize) {
            Some(pause) if pause.is_some() => {
                pause.go_on(notice, &mut state.0, regions, room);
                notice.what != 0 || notice.code != raw::STALE
            }
            _ => false,
        }
    }

    /// Forgets a notice of this queue that pauses.
    pub(crate) fn forget_pause(&mut self, kind: Kind) {
        if let Some(pause) = self.paused.get_mut(kind as usize) {
            *pause = Pause::default();
        }
    }
}
