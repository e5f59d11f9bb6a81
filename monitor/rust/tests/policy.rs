//! Guests of 1000 pages, by pencil: vb_policy.h over slices. No floor, no reserve; one page stays free.

use vb_balloon::policy::{Budget, Contact, Counter, Decision, Figures, Machine, Pressure, Sample, Tier};
use vb_balloon::policy::{KILLED_MS, PRESSED_MS};

fn heard(ballooned: u32, available: u32, free: u32) -> Figures {
    Figures {
        pages: 1000,
        ballooned,
        ballooned_then: ballooned,
        available,
        free,
        most: u32::MAX,
        contact: Contact::Heard as u16,
        ..Figures::default()
    }
}

fn budget(frames: u32) -> Budget {
    Budget { frames, band: 35, ..Budget::default() }
}

#[test]
fn unused_memory_is_given_first_and_page_cache_after_it() {
    let guests = [heard(0, 500, 300), heard(0, 500, 300), heard(0, 300, 300)];
    let tiers = budget(0).tiers(&guests[0]);
    assert_eq!((tiers.pages, tiers.unused, tiers.cached, tiers.spare, tiers.most), (1000, 299, 500, 500, 500));
    for (frames, tier, missing, targets) in [
        (3000, Tier::None, 0, vec![0, 0, 0]),
        (2400, Tier::Unused, 0, vec![200, 200, 200]),
        (1800, Tier::Cache, 0, vec![451, 451, 299]),
        (1600, Tier::Short, 100, vec![500, 500, 300]),
    ] {
        assert_eq!(budget(frames).decide(&guests), Decision { tier, missing, targets }, "{frames}");
    }
    let spared = Budget { reserve: 10, ..budget(1940) };
    assert_eq!(spared.decide(&[heard(0, 500, 9), heard(0, 500, 9), heard(0, 300, 9)]).tier, Tier::Reserve);
}

#[test]
fn a_guest_that_waits_takes_its_floor_too() {
    let waits = Figures { strict: 1, lent: 700, asked: 2, ..heard(300, 0, 0) };
    for (floor, wants) in [(0, 2), (3, 3), (100, 100)] {
        assert_eq!(Budget { floor, ..budget(0) }.wants(&waits), wants);
    }
    assert_eq!(budget(0).wants(&Figures { asked: 0, ..waits }), 0);
}

#[test]
fn a_host_without_guests_lacks_nothing() {
    assert_eq!(budget(0).decide(&[]), Decision { tier: Tier::None, missing: 0, targets: vec![] });
}

#[test]
fn a_pressed_guest_is_asked_for_no_more_than_it_has_given() {
    let pressed = Figures { pressed: 1, target: 200, ..heard(200, 500, 300) };
    let other = Figures { target: 200, ..heard(200, 500, 300) };
    assert_eq!(budget(2400).decide(&[pressed, other, other]).targets, [1, 300, 300]);
}

#[test]
fn stalls_and_kills_press_for_a_time() {
    let before = Sample { stalls: Counter::of(7), oom_kills: Counter::of(1), ..Sample::default() };
    let stalled = Sample { stalls: Counter::of(8), ..before };
    let killed = Sample { oom_kills: Counter::of(2), ..before };
    let seen = Pressure::default().after(&before, 1000);
    assert!(!seen.is_pressed(1000), "the first sample presses nobody");
    for (sample, lasts) in [(stalled, u64::from(PRESSED_MS)), (killed, u64::from(KILLED_MS))] {
        let pressure = seen.after(&sample, 2000);
        assert!(pressure.is_pressed(2000) && pressure.is_pressed(1999 + lasts) && !pressure.is_pressed(2000 + lasts));
    }
    assert!(!seen.after(&Sample { target: 1, ..stalled }, 2000).is_pressed(2000), "its balloon inflates");
    assert!(seen.after(&Sample { target: 1, ..killed }, 2000).is_pressed(2000), "no balloon kills");
}

#[test]
fn a_budget_follows_what_other_work_leaves() {
    let machine = Machine { budget: 3000, most: 4000, keep: 1000, held: 2000, available: 2500, step: 100, ..Machine::default() };
    assert_eq!(machine.budget_after(), 3100);
    assert_eq!(Machine { available: 1500, ..machine }.budget_after(), 2500, "other work needs more");
    assert_eq!(Machine { pressed: 1, ..machine }.budget_after(), 2900, "other work waits");
    assert_eq!(Machine { keep: 9999, least: 70, ..machine }.budget_after(), 70);
}
