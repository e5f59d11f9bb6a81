//! Deflates that are held until they are granted.

use crate::guest::{settings, Guest, Told};
use vb_balloon::{Balloon, Kind, Refusal, Run, Settings};

fn holding() -> Settings {
    Settings { holds_deflates: true, needs_must_tell: true, ..settings() }
}

/// A guest with ten pages in its balloon, of which a set is kept.
fn with_ten() -> (Guest, Balloon) {
    let mut guest = Guest::new();
    let mut balloon = guest.ready(holding());
    balloon.ballooned = vec![0; balloon.words_of_set()];
    balloon.deflating = balloon.ballooned.clone();
    guest.name(Kind::Inflate, &(700..710).collect::<Vec<_>>());
    assert_eq!(balloon.notify(&guest.memory, Kind::Inflate, &mut ()).marked, 10);
    (guest, balloon)
}

/// The pages of a set.
fn pages_of(set: &[u64]) -> Vec<usize> {
    (0..64 * set.len()).filter(|page| set[page / 64] >> (page % 64) & 1 == 1).collect()
}

#[test]
fn a_deflate_is_held_until_it_is_granted() {
    let (mut guest, mut balloon) = with_ten();
    let mut told = Told::default();
    assert_eq!((balloon.held_deflate(), balloon.give_deflate(&guest.memory).chains), (None, 0));
    guest.name(Kind::Deflate, &[700, 701, 705]);
    let served = balloon.notify(&guest.memory, Kind::Deflate, &mut told);
    assert_eq!((served.held, served.pages, served.chains, served.marked, served.interrupts), (Some(3), 3, 0, 0, 0));
    let runs = vec![Run { first: 700, count: 2 }, Run { first: 705, count: 1 }];
    assert_eq!((&told.runs[..], pages_of(&balloon.deflating)), (&[(Kind::Deflate, runs)][..], vec![700, 701, 705]));
    assert_eq!((guest.used_index(Kind::Deflate), balloon.count_ballooned(), balloon.held_deflate()), (0, 10, Some(3)));
    let again = balloon.notify(&guest.memory, Kind::Deflate, &mut told);
    assert_eq!((again.held, again.chains, again.stopped, told.runs.len()), (None, 0, None, 1));
    let served = balloon.give_deflate(&guest.memory);
    assert_eq!((served.chains, served.marked, served.interrupts, served.held), (1, 3, 2, None));
    assert_eq!((guest.used_index(Kind::Deflate), balloon.count_ballooned(), balloon.held_deflate()), (1, 7, None));
    assert!(!balloon.is_ballooned(705) && balloon.is_ballooned(702));
}

#[test]
fn all_portions_of_a_deflate_are_held() {
    let mut guest = Guest::new();
    let mut balloon = guest.ready(holding());
    balloon.ballooned = vec![0; balloon.words_of_set()];
    balloon.deflating = balloon.ballooned.clone();
    guest.name(Kind::Inflate, &(500..1510).collect::<Vec<_>>());
    assert_eq!(balloon.notify(&guest.memory, Kind::Inflate, &mut ()).marked, 1010);
    guest.name(Kind::Deflate, &(500..1500).collect::<Vec<_>>());
    let served = balloon.notify(&guest.memory, Kind::Deflate, &mut ());
    assert_eq!((served.held, served.pages, served.chains, served.marked), (Some(1000), 1000, 0, 0));
    assert_eq!((pages_of(&balloon.deflating), balloon.count_ballooned()), ((500..1500).collect(), 1010));
    let served = balloon.give_deflate(&guest.memory);
    assert_eq!((served.chains, served.marked, balloon.count_ballooned()), (1, 1000, 10));
    assert_eq!((pages_of(&balloon.deflating), guest.used_index(Kind::Deflate)), (vec![], 1));
}

#[test]
fn a_reset_and_a_stop_forget_it() {
    let (mut guest, mut balloon) = with_ten();
    guest.name(Kind::Deflate, &[700]);
    assert_eq!(balloon.notify(&guest.memory, Kind::Deflate, &mut ()).held, Some(1));
    assert_eq!((balloon.stop_queue(Kind::Deflate), balloon.held_deflate()), (Ok(0), None));
    assert!(pages_of(&balloon.deflating).is_empty());
    assert_eq!((balloon.give_deflate(&guest.memory).chains, balloon.count_ballooned()), (0, 10));
    let (mut guest, mut balloon) = with_ten();
    guest.name(Kind::Deflate, &[700]);
    assert_eq!(balloon.notify(&guest.memory, Kind::Deflate, &mut ()).held, Some(1));
    balloon.write_status(&guest.memory, 0, &mut ()).expect("a reset");
    assert_eq!((balloon.held_deflate(), balloon.count_ballooned()), (None, 0));
    assert!(pages_of(&balloon.deflating).is_empty());
    assert_eq!((balloon.give_deflate(&guest.memory).chains, guest.used_index(Kind::Deflate)), (0, 0));
}

#[test]
fn it_goes_on_with_its_pages_alone() {
    let (mut guest, mut balloon) = with_ten();
    guest.name(Kind::Deflate, &[700, 703]);
    assert_eq!(balloon.notify(&guest.memory, Kind::Deflate, &mut ()).held, Some(2));
    let bytes = balloon.state().to_bytes().expect("calls led there");
    let mut moved = Balloon::restore_bytes(&guest.memory, &bytes).expect("it was saved");
    moved.ballooned = balloon.ballooned.clone();
    assert_eq!((moved.held_deflate(), moved.give_deflate(&guest.memory).stopped), (Some(2), Some(Refusal::BadArgument)));
    assert_eq!((moved.count_ballooned(), guest.used_index(Kind::Deflate)), (10, 0));
    moved.deflating = balloon.deflating.clone();
    let served = moved.give_deflate(&guest.memory);
    assert_eq!((served.chains, served.marked, moved.count_ballooned()), (1, 2, 8));
    assert!(pages_of(&moved.deflating).is_empty());
}

#[test]
fn a_forgotten_one_stays_with_the_device() {
    let (mut guest, mut balloon) = with_ten();
    guest.name(Kind::Deflate, &[700]);
    assert_eq!(balloon.notify(&guest.memory, Kind::Deflate, &mut ()).held, Some(1));
    assert_eq!((balloon.forget_held(Kind::Statistics), balloon.forget_held(Kind::Deflate)), (false, true));
    assert_eq!((balloon.give_deflate(&guest.memory).chains, balloon.count_ballooned()), (0, 10));
    assert_eq!(guest.used_index(Kind::Deflate), 0);
}
