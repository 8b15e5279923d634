//! That what is rare is noted under its name, that sets of events which unpark nobody are noticed, and that too few fail a run.

use reference::met::{Met, Rare};
use reference::outcome::{Outcome, Returned};
use reference::report::Report;
use reference::thread_set::ThreadSet;
use std::process::ExitCode;

fn unparking(returned: Returned, bits: u32) -> Outcome {
    Outcome::of(returned).unparking(ThreadSet::from_bits(bits))
}

/// What is noted of a set, by a thread's event in the phase or by a tick.
fn noted(phase: Option<u8>, returned: Returned, bits: u32) -> Result<Vec<Rare>, String> {
    let mut met = Met::default();
    met.note_unparked(phase, unparking(returned, bits))?;
    let all = Rare::ALL.into_iter();
    Ok(all.filter(|rare| met.number(*rare) == 1).collect())
}

#[test]
fn sets_by_what_made_them() {
    let made = [
        (Some(7), Returned::Parked, Rare::HandedAtTry),
        (Some(11), Returned::Finished, Rare::HandedAtLeave),
        (Some(13), Returned::Parked, Rare::HandedAtWait),
        (None, Returned::GoneOn, Rare::HandedAtTick),
        (Some(6), Returned::Finished, Rare::LetOut),
        (Some(7), Returned::Finished, Rare::LetOut),
        (Some(12), Returned::GoneOn, Rare::LetOut),
    ];
    for (phase, returned, rare) in made {
        assert_eq!(noted(phase, returned, 0), Ok(vec![]));
        assert_eq!(noted(phase, returned, 0b10), Ok(vec![rare]));
        let last = noted(phase, returned, 1 << 31);
        assert_eq!(last, Ok(vec![rare, Rare::LastThread]));
        let several = match rare {
            Rare::HandedAtTick => Some(Rare::SeveralAtTick),
            Rare::LetOut => Some(Rare::SeveralLetOut),
            _ => None,
        };
        let expected = several.map(|several| vec![rare, several]);
        assert_eq!(noted(phase, returned, 0b11).ok(), expected);
    }
}

/// Begins, in phase 0, and steps from any phase that neither hands nor inflates, or that did not.
#[test]
fn sets_that_nothing_makes() {
    let silent = [0, 1, 2, 3, 4, 5, 8, 9, 10, 14, 15];
    for returned in [Returned::GoneOn, Returned::Finished, Returned::Parked] {
        for phase in silent {
            assert!(noted(Some(phase), returned, 1).is_err(), "{phase}");
            assert_eq!(noted(Some(phase), returned, 0), Ok(vec![]));
        }
    }
    for (phase, returned) in [
        (6, Returned::GoneOn),
        (7, Returned::GoneOn),
        (11, Returned::Parked),
        (12, Returned::Parked),
        (13, Returned::GoneOn),
    ] {
        assert!(noted(Some(phase), returned, 1).is_err(), "{phase}");
    }
}

#[test]
fn exits_by_the_phase_that_ended_them() {
    for phase in 0..=15 {
        let mut met = Met::default();
        assert_eq!(met.note_ended(phase, 0), Ok(()));
        let expected = match phase {
            4 => Rare::EndedAtTheFlag,
            6 => Rare::LetOutAtCheck,
            7 => Rare::LetOutAtTry,
            12 => Rare::LetOutAtInflate,
            _ => {
                assert!(met.note_ended(phase, 1).is_err());
                continue;
            }
        };
        assert_eq!(met.note_ended(phase, 3), Ok(()));
        assert_eq!(met.number(expected), 3);
    }
}

fn verdict(met: &Met) -> ExitCode {
    let mut report = Report::default();
    met.check(&Rare::ALL, &mut report);
    report.finish()
}

#[test]
fn each_must_be_met_a_hundred_times() {
    let mut enough = Met::default();
    for rare in Rare::ALL {
        enough.add(rare, 100);
    }
    assert_eq!(verdict(&enough), ExitCode::SUCCESS);
    for missing in Rare::ALL {
        let mut met = Met::default();
        for rare in Rare::ALL {
            met.add(rare, if rare == missing { 99 } else { 100 });
        }
        assert_eq!(verdict(&met), ExitCode::FAILURE);
    }
}
