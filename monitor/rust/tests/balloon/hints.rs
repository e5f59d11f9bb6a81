//! Rounds of free page hints: what calls answer, and what a notice came to.

use crate::guest::*;
use vb_balloon::{features, Kind, Refusal, Run, Settings};

const HINTS: u64 = LINUX ^ features::REPORTING | features::FREE_PAGE_HINT;

/// A chain with an id, and what it came to: the pages that were hinted after it, told and late.
#[test]
fn hints_are_told_while_their_round_is_open() {
    let mut guest = Guest::new();
    let settings = Settings { offered: HINTS | features::REPORTING, discards_hints: true, ..settings() };
    let mut balloon = guest.prepared_with(settings, HINTS);
    assert_eq!((balloon.kind(3), balloon.begin_hints()), (Some(Kind::Hint), Err(Refusal::NotReady)));
    balloon.write_status(&guest.memory, 15, &mut ()).expect("a step");
    assert_eq!((balloon.begin_hints(), balloon.begin_hints()), (Ok(2), Ok(3)));
    for (id, late) in [(2, 2), (3, 0), (0, 2)] {
        guest.name(Kind::Hint, &[id]);
        assert_eq!(balloon.notify(&guest.memory, Kind::Hint, &mut ()).chains, 1);
        assert_eq!(balloon.hints_open(), late == 0);
        guest.put(700 << 12, &[0xaa; 8192]);
        guest.describe(Kind::Hint, 0, 700 << 12, 8192, 2, 0);
        guest.publish(Kind::Hint, 0);
        let mut told = Told::default();
        let served = balloon.notify(&guest.memory, Kind::Hint, &mut told);
        assert_eq!((served.pages, served.discarded, served.late, served.skipped), (2 - late, 2 - late, late, 0));
        assert_eq!((served.interrupts, guest.byte(701 << 12)), (1 << Kind::Hint as u32, if late == 0 { 0 } else { 0xaa }));
        let runs = if late == 0 { vec![(Kind::Hint, vec![Run { first: 700, count: 2 }])] } else { vec![] };
        assert_eq!(told.runs, runs);
    }
}

/// What the configuration shows of a round that has begun, has ended, and has stopped.
#[test]
fn rounds_are_shown() {
    let guest = Guest::new();
    let mut balloon = guest.prepared_with(Settings { offered: HINTS | features::REPORTING, ..settings() }, HINTS);
    balloon.write_status(&guest.memory, 15, &mut ()).expect("a step");
    let mut word = [7; 4];
    balloon.begin_hints().expect("a round");
    balloon.read_config(8, &mut word);
    assert_eq!(word, [2, 0, 0, 0]);
    balloon.end_hints();
    balloon.read_config(8, &mut word);
    assert_eq!(word, [1, 0, 0, 0]);
    balloon.stop_hints();
    balloon.read_config(8, &mut word);
    assert_eq!(word, [0; 4]);
}
