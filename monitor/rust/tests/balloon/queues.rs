//! Queues that start at an index and stop.

use crate::guest::{buffer, settings, table, Guest};
use vb_balloon::{features, Kind, QueueStart, Refusal, State};

fn there(kind: Kind, next: u16) -> QueueStart {
    let at = table(kind);
    QueueStart { table: at, avail: at + 4096, used: at + 8192, size: 8, next }
}

#[test]
fn a_queue_stops_and_goes_on() {
    let mut guest = Guest::new();
    let mut balloon = guest.ready(settings());
    guest.name(Kind::Inflate, &[700]);
    assert_eq!(balloon.notify(&guest.memory, Kind::Inflate, &mut ()).chains, 1);
    let (running, next) = (balloon.state(), |state: State| state.next_index(Kind::Inflate));
    assert_eq!(balloon.stop_queue(Kind::Inflate), Ok(1));
    assert_eq!((next(running), next(balloon.state())), (Some(1), None));
    assert_eq!(balloon.notify(&guest.memory, Kind::Inflate, &mut ()).stopped, Some(Refusal::Misplaced));
    assert_eq!(balloon.stop_queue(Kind::Inflate), Err(Refusal::Misplaced));
    guest.name(Kind::Inflate, &[701]);
    assert_eq!(balloon.start_queue(&guest.memory, Kind::Inflate, there(Kind::Inflate, 1)), Ok(()));
    let served = balloon.notify(&guest.memory, Kind::Inflate, &mut ());
    assert_eq!((served.chains, served.pages, guest.used_index(Kind::Inflate)), (1, 1, 2));
}

#[test]
fn a_held_buffer_is_forgotten_with_its_queue() {
    let mut guest = Guest::new();
    let mut balloon = guest.prepared(settings());
    guest.describe(Kind::Statistics, 0, buffer(Kind::Statistics), 10, 0, 0);
    guest.publish(Kind::Statistics, 0);
    assert_eq!(balloon.start_queue(&guest.memory, Kind::Statistics, there(Kind::Statistics, 0)), Ok(()));
    assert_eq!(balloon.write_status(&guest.memory, 15, &mut ()).map(|it| it.chains), Ok(1));
    assert_eq!(balloon.stop_queue(Kind::Statistics), Ok(0));
    assert_eq!(balloon.ask_statistics(&guest.memory).chains, 0);
    assert_eq!(balloon.start_queue(&guest.memory, Kind::Statistics, there(Kind::Statistics, 0)), Ok(()));
    assert_eq!(balloon.notify(&guest.memory, Kind::Statistics, &mut ()).chains, 1);
    assert_eq!((balloon.forget_held(Kind::Statistics), balloon.forget_held(Kind::Statistics)), (true, false));
}

#[test]
fn starts_are_refused() {
    let guest = Guest::new();
    let mut balloon = guest.ready(settings());
    let misplaced = QueueStart { table: 8 << 20, ..there(Kind::Inflate, 0) };
    let before = balloon.state().to_bytes();
    assert_eq!(balloon.start_queue(&guest.memory, Kind::Inflate, misplaced), Err(Refusal::Misplaced));
    assert_eq!(balloon.state().to_bytes(), before);
    balloon.write_status(&guest.memory, 0, &mut ()).expect("a reset");
    assert_eq!(balloon.start_queue(&guest.memory, Kind::Inflate, there(Kind::Inflate, 0)), Err(Refusal::NotReady));
    let kind = |features, number| Kind::of_number(features, number);
    assert_eq!((kind(features::REPORTING, 2), kind(features::STATS_VQ, 3)), (Some(Kind::Report), None));
}
