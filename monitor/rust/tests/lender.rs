//! A host of 100 frames and two guests, by pencil: vb_host.h over a list of seats.

use vb_balloon::lender::{
    Aim, Ask, Event, Exchange, Hold, Lender, Line, Look, Message, Pace, Reading, Report, Seat, Stand,
};

/// What the process of a guest of these pages reports before it is let in.
fn coming(pages: u32, ballooned: u32) -> Report {
    Report {
        ballooned: pages,
        target: pages,
        read_target: pages,
        held: pages - ballooned,
        line: Line::Arrivals as u32,
        deflates: 1,
        ..Report::default()
    }
}

/// The first guest has 60 pages, 10 of which stay in its balloon; the second has 86, and waits.
fn host() -> Lender {
    let mut lender = Lender::new(100, 6);
    assert_eq!((lender.add_place(), lender.add_place()), (0, 1));
    lender.step(Event::Arrives { guest: 0, pages: 60, ballooned: 10 });
    lender.step(Event::Hears { guest: 0, report: coming(60, 10) });
    lender.step(Event::Arrives { guest: 1, pages: 86, ballooned: 0 });
    lender.step(Event::Hears { guest: 1, report: coming(86, 0) });
    lender
}

/// The first has given 40 pages for its target, and its driver has read that.
fn given() -> Report {
    Report { ballooned: 40, target: 40, read_target: 40, target_number: 2, deflates: 1, ..Report::default() }
}

#[test]
fn a_guest_is_let_in_where_there_is_room_and_another_one_waits() {
    let lender = host();
    let first = Seat {
        pages: 60,
        ballooned: 10,
        least_target: 10,
        target: 10,
        wanted: 10,
        line: Line::Arrivals as u32,
        target_number: 1,
        deflates: 1,
        granted: 1,
        ..Seat::default()
    };
    assert_eq!(lender.seats()[0], first);
    assert_eq!((lender.owed(), lender.room(), lender.first()), (50, 0, Some(1)));
    assert_eq!(lender.least_budget(), 136);
    assert_eq!((first.lent(), first.asked(), first.waits()), (50, 0, false));
    let second = lender.seats()[1];
    assert_eq!((second.lent(), second.asked(), second.waits(), second.turn), (0, 86, true, 1));
    let mut again = lender.clone();
    again.step(Event::Targets { guest: 0 });
    assert_eq!(again, lender, "each step sets the target that is possible");
}

#[test]
fn orders_are_due_until_a_report_shows_them() {
    let seat = host().seats()[0];
    assert!(seat.due_target(&coming(60, 10)) && seat.due_grant(&coming(60, 10)));
    let received = Report { target_number: 1, ..coming(60, 10) };
    assert!(!seat.due_target(&received) && seat.due_grant(&received));
    let given_back = Report { held: 0, ..coming(60, 10) };
    assert!(seat.due_target(&given_back) && !seat.due_grant(&given_back));
}

#[test]
fn a_message_is_read_as_a_report() {
    let seat = Seat { pages: 60, ballooned: 30, target: 30, outside: 7, deflates: 6, granted: 6, ..Seat::default() };
    let exchange = Exchange { ask: Ask::Deflate as u32, asked: 8, asks: 6, ..Exchange::default() };
    let message = Message { pages: 50, ballooned: 26, target: 30, read: 31, outside: 14, ..Message::default() };
    let message = Message { held: 2, deflate: 9, holds: Hold::Deflates as u32, ..message };
    let noted = seat.note(&exchange, &message, 70);
    assert_eq!(noted, Exchange { asked: 9, asks: 7, received: 70, ..exchange });
    let reading = seat.read(&noted, &message, 70);
    let report = Report { ballooned: 26, target: 30, read_target: 30, held: 2, outside: 13, ..Report::default() };
    assert_eq!(reading, Reading { report: Report { deflates: 7, removed: 10, ..report }, ..Reading::default() });
    let taken = seat.read(&noted, &Message { ballooned: 19, ..message }, 70);
    assert_eq!((taken.report.outside, taken.taken), (6, 1));
}

#[test]
fn who_is_not_strict_is_followed() {
    let seat = Seat { pages: 60, ballooned: 30, target: 30, outside: 7, granted: 1, ..Seat::default() };
    let message = Message { pages: 50, ballooned: 26, outside: 99, ..Message::default() };
    let report = Report { ballooned: 26, target: 20, read_target: 20, outside: 17, ..Report::default() };
    let report = Report { target_number: 1, deflates: 1, ..report };
    assert_eq!(seat.follow(&message, 50, 20), report);
}

#[test]
fn a_target_grows_by_its_part_of_a_guest() {
    let seat = Seat { pages: 60, target: 20, wanted: 20, target_number: 1, granted: 1, ..Seat::default() };
    let aim = Aim { target: 50, strict: 1, ready: 1, seconds: 4, passed: 1000, ..Aim::default() };
    assert_eq!(seat.pace(&aim), Pace { all: 50, now: 35, rises: 1, gains: 0 });
    assert_eq!(seat.pace(&Aim { needed: 1, ..aim }).now, 50);
}

#[test]
fn an_overdraft_is_lent_once_all_others_have_reached_their_targets() {
    let mut lender = host();
    lender.step(Event::Wants { guest: 0, pages: 40 });
    assert_eq!(lender.least_budget(), 106, "86 beside the 20 that it is to keep");
    lender.step(Event::Overdraws { guest: 1 });
    assert_eq!((lender.seats()[0].target, lender.first()), (40, Some(1)));
    lender.step(Event::Hears { guest: 0, report: given() });
    lender.step(Event::Grants { guest: 1 });
    assert_eq!((lender.owed(), lender.first()), (20, Some(1)), "86 beside 20 are 6 too many");
    lender.step(Event::Overdraws { guest: 1 });
    assert_eq!((lender.owed(), lender.room(), lender.first()), (106, 0, None));
}

#[test]
fn a_budget_lets_in_and_a_guest_that_has_gone_makes_room() {
    let mut lender = host();
    lender.step(Event::Budget { frames: 135 });
    assert_eq!((lender.frames(), lender.first()), (135, Some(1)));
    lender.step(Event::Budget { frames: 136 });
    assert_eq!((lender.owed(), lender.first()), (136, None));
    lender.step(Event::Arrives { guest: 0, pages: 0, ballooned: 0 });
    assert_eq!((lender.seats()[0], lender.owed()), (Seat::default(), 86));
    lender.step(Event::Budget { frames: 100 });
    assert_eq!((lender.room(), lender.seats()[1].target), (14, 0));
}

#[test]
fn memory_that_was_let_in_joins_a_guest() {
    let mut lender = Lender::new(200, 0);
    assert_eq!((lender.add_place(), lender.add_place()), (0, 1));
    lender.step(Event::Arrives { guest: 0, pages: 60, ballooned: 0 });
    lender.step(Event::Hears { guest: 0, report: coming(60, 0) });
    lender.step(Event::Arrives { guest: 1, pages: 8, ballooned: 0 });
    lender.step(Event::Joins { guest: 0, added: 1 });
    assert_eq!(lender.seats()[0].pages, 60, "none of it is lent yet");
    lender.step(Event::Hears { guest: 1, report: coming(8, 0) });
    lender.step(Event::Joins { guest: 0, added: 1 });
    assert_eq!((lender.seats()[0].pages, lender.seats()[1]), (68, Seat::default()));
    lender.step(Event::Joins { guest: 0, added: 2 });
    assert_eq!(lender.owed(), 68);
}

/// The second wants its 60 pages again after a reset, and a third of 30 waits to come.
fn short() -> Lender {
    let mut lender = Lender::new(100, 0);
    for (guest, pages) in [(0, 40), (1, 60), (2, 30)] {
        assert_eq!(lender.add_place(), guest);
        lender.step(Event::Arrives { guest, pages, ballooned: 0 });
    }
    lender.step(Event::Hears { guest: 0, report: coming(40, 0) });
    let waits = Report { held: 60, line: Line::Resets as u32, ..coming(60, 0) };
    lender.step(Event::Budget { frames: 90 });
    lender.step(Event::Hears { guest: 1, report: waits });
    lender.step(Event::Hears { guest: 2, report: coming(30, 0) });
    lender
}

#[test]
fn one_that_waits_lets_others_pass() {
    let mut lender = short();
    assert_eq!((lender.first(), lender.owed()), (Some(1), 40));
    lender.step(Event::Defers { guest: 0 });
    assert_eq!((lender.first(), lender.seats()[0].deferred), (Some(1), 0), "it doesn't wait");
    lender.step(Event::Defers { guest: 1 });
    assert_eq!((lender.first(), lender.owed()), (Some(1), 70), "the third has passed it");
    assert_eq!((lender.seats()[1].deferred, lender.seats()[1].turn), (1, 3));
    lender.step(Event::Budget { frames: 130 });
    assert_eq!((lender.seats()[1].deferred, lender.owed()), (0, 130), "its wait is over");
}

#[test]
fn one_that_is_preferred_comes_first_in_its_line() {
    let mut lender = short();
    let resets = Report { line: Line::Resets as u32, deflates: 2, ..coming(30, 0) };
    lender.step(Event::Hears { guest: 2, report: resets });
    assert_eq!((lender.first(), lender.owed()), (Some(1), 40), "its turn is the later one");
    lender.step(Event::Prefers { guest: 2 });
    assert_eq!((lender.first(), lender.owed()), (Some(1), 70));
    assert_eq!(lender.seats()[2].preferred, 1);
}

#[test]
fn events_alone_are_followed_by_one_step() {
    let mut lender = host();
    lender.happen(Event::Budget { frames: 136 });
    assert_eq!((lender.frames(), lender.first(), lender.owed()), (136, Some(1), 50));
    lender.happen(Event::Wants { guest: 0, pages: 20 });
    assert_eq!(lender.seats()[0].target, 10);
    lender.step(Event::Wants { guest: 1, pages: 3 });
    assert_eq!((lender.first(), lender.owed()), (None, 136));
    assert_eq!((lender.seats()[0].target, lender.seats()[1].target), (20, 3));
}

#[test]
fn a_host_that_stands_still_is_helped() {
    let lender = short();
    let stand = lender.stand(&Stand::default(), 1000);
    assert_eq!(stand, Stand { first: 2, lent: 40, since: 1000, head: 2, turn: 1, head_since: 1000 });
    assert_eq!(lender.stand(&stand, 1500), stand);
    let look = Look { time: 2000, missing: 10, patience: 3, awaits: 0 };
    assert_eq!(lender.relief(&stand, &Look { time: 1999, ..look }), None);
    assert_eq!(lender.relief(&stand, &look), Some(Event::Prefers { guest: 1 }));
    assert_eq!(lender.relief(&stand, &Look { missing: 0, ..look }), None, "the overdraft has nothing");
    assert_eq!(lender.relief(&stand, &Look { time: 4000, ..look }), Some(Event::Defers { guest: 1 }));
}

#[test]
fn a_later_lender_goes_by_the_first_report() {
    let mut lender = Lender::new(33, 0);
    assert_eq!(lender.add_place(), 0);
    let report = Report {
        ballooned: 38,
        target: 40,
        read_target: 30,
        held: 12,
        line: Line::Resets as u32,
        outside: 2,
        target_number: 7,
        deflates: 5,
        removed: 3,
    };
    lender.step(Event::TakesOver { guest: 0, pages: 60, report });
    let seat = lender.seats()[0];
    assert_eq!((seat.lent(), seat.asked(), seat.granted, seat.turn), (32, 4, 4, 1));
    lender.step(Event::Uncounts { guest: 0 });
    assert_eq!((lender.owed(), lender.seats()[0].ballooned), (62, 0));
}
