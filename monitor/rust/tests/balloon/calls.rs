//! Requests, reports, statistics and configuration.

use crate::guest::{buffer, settings, Guest, Told, HIGH, LINUX};
use vb_balloon::{features, Balloon, Kind, Refusal, Run, Settings, State, Statistic};

#[test]
fn pages_go_and_come() {
    let mut guest = Guest::new();
    let (mut balloon, mut told) = (guest.ready(settings()), Told::default());
    for page in 500..520 {
        guest.put(page * 4096, &[1; 4096]);
        guest.put(HIGH + page * 4096, &[1; 4096]);
    }
    let high = (HIGH / 4096) as u32 + 510;
    guest.name(Kind::Inflate, &[505, 504, 503, high, high + 1, 3000]);
    let served = balloon.notify(&guest.memory, Kind::Inflate, &mut told);
    assert_eq!((served.chains, served.pages, served.discarded, served.in_holes), (1, 6, 5, 1));
    assert_eq!((served.interrupts, served.stopped, served.more), (1, None, false));
    let run = |first, count| Run { first, count };
    assert_eq!(told.runs, [(Kind::Inflate, vec![run(503, 3), run(high, 2), run(3000, 1)])]);
    for page in 500..520 {
        assert_eq!(guest.byte(page * 4096), u8::from(!(503..506).contains(&page)));
        assert_eq!(guest.byte(HIGH + page * 4096), u8::from(!(510..512).contains(&page)));
    }
    assert_eq!(guest.used_index(Kind::Inflate), 1);
    guest.name(Kind::Deflate, &[503]);
    let served = balloon.notify(&guest.memory, Kind::Deflate, &mut told);
    assert_eq!((served.pages, served.discarded, served.interrupts), (1, 0, 2));
    assert_eq!(balloon.notify(&guest.memory, Kind::Deflate, &mut told).chains, 0);
}

#[test]
fn a_page_of_numbers_goes_in_portions() {
    let mut guest = Guest::new();
    let (mut balloon, mut told) = (guest.ready(settings()), Told::default());
    balloon.ballooned = vec![0; balloon.words_of_set()];
    guest.name(Kind::Inflate, &(500..1524).collect::<Vec<_>>());
    let served = balloon.notify(&guest.memory, Kind::Inflate, &mut told);
    assert_eq!((served.chains, served.pages, served.discarded, served.marked, served.interrupts), (1, 1024, 1024, 1024, 1));
    let portion = |first| (Kind::Inflate, vec![Run { first, count: 256 }]);
    assert_eq!(told.runs, [500, 756, 1012, 1268].map(portion));
    assert_eq!((guest.used_index(Kind::Inflate), balloon.count_ballooned()), (1, 1024));
    guest.name(Kind::Inflate, &(300..556).chain([6144]).collect::<Vec<_>>());
    let served = balloon.notify(&guest.memory, Kind::Inflate, &mut told);
    assert_eq!((served.stopped, served.chains, served.pages, served.marked), (Some(Refusal::Broken(9)), 0, 256, 200));
    assert_eq!((guest.used_index(Kind::Inflate), told.runs.len()), (1, 5));
}

#[test]
fn statistics_come_before_the_driver_is_ready_and_outlive_a_move() {
    let mut guest = Guest::new();
    let (mut balloon, mut told) = (guest.prepared(settings()), Told::default());
    let figure = Statistic { tag: 9, value: 0xfedc_ba98_7654_3210 };
    guest.put(buffer(Kind::Statistics), &figure.tag.to_le_bytes());
    guest.put(buffer(Kind::Statistics) + 2, &figure.value.to_le_bytes());
    guest.describe(Kind::Statistics, 0, buffer(Kind::Statistics), 10, 0, 0);
    guest.publish(Kind::Statistics, 0);
    assert_eq!(balloon.notify(&guest.memory, Kind::Statistics, &mut told).stopped, Some(Refusal::NotReady));
    assert_eq!(balloon.write_status(&guest.memory, 15, &mut told).map(|it| it.chains), Ok(1));
    assert_eq!((&told.figures[..], guest.used_index(Kind::Statistics)), (&[figure][..], 0));
    let bytes = balloon.state().to_bytes().expect("calls led there");
    let moved = Balloon::restore(State::from_bytes(&bytes).expect("it was saved"));
    assert_eq!(
        (moved.state().to_bytes(), moved.most_chains, moved.most_pages, moved.keeps_pages),
        (Ok(bytes), 256, u32::MAX, false)
    );
    let mut balloon = Balloon::restore_bytes(&guest.memory, &bytes).expect("it was saved");
    assert_eq!(balloon.state().to_bytes(), Ok(bytes));
    assert_eq!(balloon.ask_statistics(&guest.memory).interrupts, 4);
    assert_eq!((balloon.ask_statistics(&guest.memory).chains, guest.used_index(Kind::Statistics)), (0, 1));
    guest.publish(Kind::Statistics, 0);
    assert_eq!(balloon.notify(&guest.memory, Kind::Statistics, &mut told).chains, 1);
}

#[test]
fn reports_are_discarded() {
    let mut guest = Guest::new();
    let mut balloon = guest.ready(settings());
    guest.put(600 * 4096, &[1; 4 * 4096]);
    guest.describe(Kind::Report, 0, 601 * 4096, 8192, 3, 1);
    guest.describe(Kind::Report, 1, 2047 * 4096, 2050 * 4096, 2, 0);
    guest.publish(Kind::Report, 0);
    let served = balloon.notify(&guest.memory, Kind::Report, &mut ());
    assert_eq!((served.pages, served.discarded, served.in_holes), (2052, 4, 2048));
    assert_eq!([600, 601, 602, 603].map(|page| guest.byte(page * 4096)), [1, 0, 0, 1]);
}

#[test]
fn what_is_wrong_is_refused_or_skipped() {
    let mut guest = Guest::new();
    let mut balloon = guest.ready(settings());
    guest.name(Kind::Inflate, &[600, 6144]);
    let served = balloon.notify(&guest.memory, Kind::Inflate, &mut ());
    assert_eq!((served.stopped, served.discarded), (Some(Refusal::Broken(9)), 0));
    assert!(served.needs_configuration_notice() && balloon.status() == 15 | 64);
    assert_eq!(balloon.notify(&guest.memory, Kind::Inflate, &mut ()).stopped, Some(Refusal::NeedsReset));

    let mut guest = Guest::new();
    let mut balloon = guest.ready(Settings { skips_bad_pages: true, ..settings() });
    guest.name(Kind::Inflate, &[600, 6144]);
    let served = balloon.notify(&guest.memory, Kind::Inflate, &mut ());
    assert_eq!((served.stopped, served.pages, served.skipped), (None, 1, 1));
    guest.describe(Kind::Inflate, 0, (8 << 20) - 2, 4, 0, 0); // half in the hole
    guest.publish(Kind::Inflate, 0);
    assert_eq!(balloon.notify(&guest.memory, Kind::Inflate, &mut ()).stopped, Some(Refusal::Broken(6)));
}

#[test]
fn configuration_and_places() {
    let guest = Guest::new();
    let mut balloon = guest.prepared(settings());
    balloon.set_target(513);
    balloon.write_config(4, &[1, 2, 0, 0]).expect("actual");
    assert!(balloon.actual() == 513 && !balloon.is_off_target());
    let mut out = [9; 12];
    balloon.read_config(0, &mut out);
    assert_eq!(out, [1, 2, 0, 0, 1, 2, 0, 0, 0, 0, 0, 0]);
    assert_eq!(balloon.write_config(0, &[0; 7]), Err(Refusal::BadArgument));
    balloon.write_config(0, &[9, 9, 9, 9, 3, 0, 0, 0, 9, 9, 9, 9, 9, 9, 9, 9]).expect("actual, as QEMU writes it");
    assert_eq!((balloon.actual(), balloon.keeps_reports()), (3, false));
    let place =
        |balloon: &mut Balloon, table, size| balloon.place(&guest.memory, Kind::Inflate, table, 0x2000, 0x3000, size);
    assert_eq!(place(&mut balloon, 9 << 20, 8), Err(Refusal::Misplaced));
    assert_eq!(place(&mut balloon, 0x1000, 7), Err(Refusal::Misplaced));
    assert_eq!(place(&mut balloon, 0x1000, 256), Ok(()));
    assert!(Balloon::new(&guest.memory, Settings::default()).is_err());
}

/// What is named is told and marked, and stays, as long as the balloon keeps its pages; but what is requested back isn't kept.
#[test]
fn pages_are_kept() {
    let mut guest = Guest::new();
    let mut balloon = guest.ready(settings());
    balloon.keeps_pages = true;
    guest.put(700 << 12, &[7; 2 << 12]);
    for (kind, kept, discarded) in
        [(Kind::Inflate, 2, 0), (Kind::Report, 2, 0), (Kind::Deflate, 0, 0), (Kind::Inflate, 0, 2)]
    {
        balloon.keeps_pages = discarded == 0;
        if kind == Kind::Report {
            guest.describe(kind, 0, 700 << 12, 2 << 12, 2, 0);
            guest.publish(kind, 0);
        } else {
            guest.name(kind, &[700, 701]);
        }
        let mut told = Told::default();
        let served = balloon.notify(&guest.memory, kind, &mut told);
        assert_eq!((served.pages, served.kept, served.discarded, served.in_holes), (2, kept, discarded, 0));
        assert_eq!(told.runs, vec![(kind, vec![Run { first: 700, count: 2 }])]);
        assert_eq!(guest.byte(701 << 12), if discarded == 0 { 7 } else { 0 });
    }
}

/// What a driver that poisons its free pages reports is told and given back, and keeps its bytes.
#[test]
fn reports_keep_what_is_poisoned() {
    for (poison, kept) in [(0xaa, 1), (0, 0)] {
        let mut guest = Guest::new();
        let offered = LINUX | features::PAGE_POISON;
        let mut balloon = guest.prepared_with(Settings { offered, ..settings() }, offered);
        balloon.write_config(12, &[poison; 4]).expect("poison_val");
        balloon.write_status(&guest.memory, 15, &mut ()).expect("a step");
        guest.put(700 << 12, &[0xaa; 4096]);
        guest.describe(Kind::Report, 0, 700 << 12, 4096, 2, 0);
        guest.publish(Kind::Report, 0);
        let mut told = Told::default();
        let served = balloon.notify(&guest.memory, Kind::Report, &mut told);
        assert_eq!((served.pages, served.kept, served.discarded, served.in_holes), (1, kept, 1 - kept, 0));
        assert_eq!((told.runs, served.error), (vec![(Kind::Report, vec![Run { first: 700, count: 1 }])], None));
        assert_eq!((guest.byte(700 << 12), balloon.keeps_reports()), (poison, poison != 0));
        assert_eq!(guest.used_index(Kind::Report), 1);
    }
    let mut balloon = Guest::new().prepared(settings());
    assert_eq!(balloon.write_config(12, &[1; 4]), Err(Refusal::BadArgument));
}
