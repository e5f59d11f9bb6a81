//! Saved states that are damaged.

use crate::guest::{settings, Guest};
use vb_balloon::{Balloon, State, StateError, STATE_BYTES};
use vm_memory::{GuestAddress, GuestMemoryMmap};

/// Each byte of a saved state changed in turn, and each length: refused by name.
#[test]
fn damaged_states_are_refused() {
    let guest = Guest::new();
    let saved = guest.ready(settings()).state().to_bytes().expect("calls led there");
    let refused = |bytes: &[u8]| State::from_bytes(bytes).err();
    for at in 0..STATE_BYTES {
        for change in 1..=255 {
            let mut bytes = saved;
            bytes[at] ^= change;
            let expected = match at {
                0..=7 => StateError::NotAState,
                8 if bytes[8] == 2 || bytes[8] == 3 => StateError::BadLength, // older versions have others
                8..=11 => StateError::OtherVersion,
                12..=15 => StateError::BadLength,
                _ => StateError::BadSum,
            };
            assert_eq!(refused(&bytes), Some(expected), "byte {at}");
        }
        assert_eq!(refused(&saved[..at]), Some(StateError::BadLength), "length {at}");
    }
    let longer = [&saved[..], &[0]].concat();
    assert_eq!((refused(&saved), refused(&longer)), (None, Some(StateError::BadLength)));
    assert_eq!(Balloon::restore_bytes(&guest.memory, &longer).err(), Some(StateError::BadLength));
    let other = GuestMemoryMmap::<()>::from_ranges(&[(GuestAddress(0), 4 << 20)]).expect("there is memory");
    assert_eq!(Balloon::restore_bytes(&other, &saved).err(), Some(StateError::Misplaced));
    assert!(vb_balloon::is_library_of_this_version());
}
