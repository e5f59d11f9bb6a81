//! Why calls are refused, in words: each of them is an error of the standard library.

use crate::{Denied, Refusal, StateError, Unreachable};
use std::error::Error;
use std::fmt::{Display, Formatter, Result};

impl Display for Refusal {
    fn fmt(&self, out: &mut Formatter) -> Result {
        out.write_str(match self {
            Refusal::Broken(rule) => return write!(out, "the guest's bytes break rule {rule}"),
            Refusal::NotReady => "the driver isn't ready",
            Refusal::NeedsReset => "the device needs a reset",
            Refusal::NoQueue => "there is no such queue",
            Refusal::Misplaced => "a queue has no place, or one that it may not have",
            Refusal::BadArgument => "an argument is out of its range",
            Refusal::Stale => "the device was reset, or its queue moved, amid the notice",
            Refusal::Unreachable => "an access to guest memory failed",
        })
    }
}

impl Display for Denied {
    fn fmt(&self, out: &mut Formatter) -> Result {
        out.write_str(match self.0 {
            1 => "the status clears a bit",
            2 => "the status or the features come out of order",
            3 => "a feature isn't offered",
            4 => "MUST_TELL_HOST is missing",
            5 => "VERSION_1 is missing",
            why => return write!(out, "refused for reason {why}"),
        })
    }
}

impl Display for StateError {
    fn fmt(&self, out: &mut Formatter) -> Result {
        out.write_str(match self {
            StateError::BadLength => "a saved state has another length",
            StateError::NotAState => "the bytes aren't a saved state",
            StateError::OtherVersion => "the saved state has another version",
            StateError::BadSum => "the saved state is damaged",
            StateError::Impossible => "no calls lead to a device of this state",
            StateError::Misplaced => "the saved state is of another guest memory",
        })
    }
}

impl Display for Unreachable {
    fn fmt(&self, out: &mut Formatter) -> Result {
        Refusal::Unreachable.fmt(out)
    }
}

impl Error for Refusal {}
impl Error for Denied {}
impl Error for StateError {}
impl Error for Unreachable {}
