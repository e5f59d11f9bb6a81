//! Rounds of free page hints (VIRTIO 1.2, 5.5.6.6). After each of these calls but the last one, notify the driver of a configuration
//! change.

use crate::settings::{refusal, Refusal};
use crate::{raw, Balloon};

impl Balloon {
    /// Begins a round, in place of one that is on: its id, which the configuration shows.
    ///
    /// # Errors
    /// As vb_begin_hints; nothing is changed.
    pub fn begin_hints(&mut self) -> Result<u32, Refusal> {
        let mut id = 0;
        // SAFETY: the pointers are of two `&mut`.
        match unsafe { raw::vb_begin_hints(&mut self.state.0.device, &mut id) } {
            raw::OK => Ok(id),
            code => Err(refusal(code, 0)),
        }
    }

    /// Stops a round, at any time: the driver hints no more, and may keep what it hinted.
    pub fn stop_hints(&mut self) {
        // SAFETY: the pointer is of a `&mut`.
        unsafe { raw::vb_stop_hints(&mut self.state.0.device) }
    }

    /// Ends a round, at any time: the driver takes back what it hinted.
    pub fn end_hints(&mut self) {
        // SAFETY: the pointer is of a `&mut`.
        unsafe { raw::vb_end_hints(&mut self.state.0.device) }
    }

    /// Whether a round is open: its id was read since it began, and nothing ended it.
    pub fn hints_open(&self) -> bool {
        // SAFETY: the pointer is of a `&`.
        unsafe { raw::vb_hints_open(&self.state.0.device) != 0 }
    }
}
