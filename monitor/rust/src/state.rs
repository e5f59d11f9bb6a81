//! A device's state, and the bytes that it is saved as.

use crate::{raw, Kind};

/// All that a device is. Copy it within a process, and hand it to [`Balloon::restore`](crate::Balloon::restore);
/// [`State::to_bytes`] makes what lasts.
#[derive(Clone, Copy)]
#[repr(transparent)]
pub struct State(pub(crate) raw::Balloon);

/// Bytes of a saved state.
pub const STATE_BYTES: usize = raw::STATE_BYTES as usize;

/// Why a state isn't restored, or saved.
#[derive(Clone, Copy, Debug, PartialEq, Eq)]
pub enum StateError {
    /// There are more or fewer bytes than a saved state has.
    BadLength,
    /// The bytes don't begin as a saved state does.
    NotAState,
    /// The format has another version.
    OtherVersion,
    /// The bytes aren't those that were saved.
    BadSum,
    /// No calls lead to a device like that.
    Impossible,
    /// Guest memory ends elsewhere than it did, or a queue's part lies in a hole.
    Misplaced,
}

pub(crate) fn state_error(code: u32) -> StateError {
    match code {
        raw::BAD_LENGTH => StateError::BadLength,
        raw::NOT_A_STATE => StateError::NotAState,
        raw::OTHER_VERSION => StateError::OtherVersion,
        raw::BAD_SUM => StateError::BadSum,
        raw::MISPLACED => StateError::Misplaced,
        _ => StateError::Impossible,
    }
}

impl State {
    /// The index at which a queue resumes, as [`Balloon::stop_queue`](crate::Balloon::stop_queue) answers it; none where it has no
    /// place.
    pub fn next_index(&self, kind: Kind) -> Option<u16> {
        let (mut stopped, mut next) = (self.0, 0);
        // SAFETY: the pointers are of two `&mut`.
        let code = unsafe { raw::vb_stop_queue(&mut stopped, kind as u32, &mut next) };
        (code == raw::OK).then_some(next)
    }

    /// The state as bytes with a format (docs/INTEGRATION.md), for [`State::from_bytes`] of this version or a later one,
    /// on any machine.
    ///
    /// # Errors
    /// `Impossible` where no calls lead to such a device, as after [`Balloon::set_memory`](crate::Balloon::set_memory)
    /// that leaves a queue outside.
    pub fn to_bytes(&self) -> Result<[u8; STATE_BYTES], StateError> {
        let mut bytes = [0; STATE_BYTES];
        // SAFETY: the pointers are of a `&` and of an array with its length.
        match unsafe { raw::vb_save(&self.0.device, self.0.held, bytes.as_mut_ptr(), bytes.len()) } {
            raw::OK => Ok(bytes),
            code => Err(state_error(code)),
        }
    }

    /// The state that was saved as these bytes.
    ///
    /// # Errors
    /// Why they aren't a saved state.
    pub fn from_bytes(bytes: &[u8]) -> Result<State, StateError> {
        let mut made = raw::Balloon::default();
        // SAFETY: the pointers are of two `&mut` and of a slice with its length.
        match unsafe { raw::vb_restore(&mut made.device, &mut made.held, bytes.as_ptr(), bytes.len()) } {
            raw::OK => Ok(State(made)),
            code => Err(state_error(code)),
        }
    }
}
