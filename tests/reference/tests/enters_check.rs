//! That the check of a report notices what is wrong, and counts enters and kinds of input as they are.

use reference::enters::{report, MOST_LINES};
use reference::enters_check::{check_output, check_report};
use reference::recount::recount;
use reference::report_inputs::report_input;
use reference::seen::Seen;
use reference::tally::{Kind, Tally};
use std::collections::BTreeSet;

/// Three enters of object 1, by a free word and nesting, two of object 2, and none of object 3.
const INPUT: &[u8] =
    b"L 1 3 0\nE 1 1\nS 1\nE 1 1\nS 1\nE 1 1\nS 1\nE 1 2\nS 1\nL 1 2 1\nE 1 2\nS 1\n";
const FIGURES: [u64; 5] = [1, 0, 2, 2, 0];

fn is_noticed(output: &str) -> bool {
    check_output(output.as_bytes(), &recount(INPUT)).is_err()
}

fn right() -> String {
    String::from_utf8(report(INPUT)).expect("ASCII")
}

#[test]
fn a_right_report() {
    assert_eq!(check_output(&report(INPUT), &recount(INPUT)), Ok(FIGURES));
}

/// One more or less in any place.
#[test]
fn wrong_numbers() {
    let lines: Vec<String> = right().lines().map(str::to_string).collect();
    for (place, line) in lines.iter().enumerate() {
        let numbers: Vec<u64> = line.split(' ').map(|word| word.parse().unwrap()).collect();
        for changed in 0..numbers.len() {
            for wrong in [numbers[changed] + 1, numbers[changed].wrapping_sub(1)] {
                let mut numbers = numbers.clone();
                numbers[changed] = wrong;
                let words: Vec<String> = numbers.iter().map(u64::to_string).collect();
                let mut lines = lines.clone();
                lines[place] = words.join(" ");
                assert!(is_noticed(&(lines.join("\n") + "\n")), "{lines:?}");
            }
        }
    }
}

#[test]
fn wrong_forms() {
    let right = right();
    let (first, rest) = right.split_once('\n').expect("a line");
    let wrong = [
        String::new(),
        rest.to_string(),
        right.clone() + "\n",
        right.trim_end().to_string(),
        right.replacen(' ', "  ", 1),
        right.replacen(' ', " 0", 1),
        right.replacen(' ', " +", 1),
        right.replacen('\n', " \n", 1),
        right.replacen('\n', "\r\n", 1),
        format!("{rest}{first}\n"),
        format!("{first}\n{right}"),
        "24\n".to_string(),
    ];
    for output in wrong {
        assert!(is_noticed(&output), "{output:?}");
    }
}

/// A share too small by one with a remainder too large by the sum adds up, but is not rounded as it should be.
#[test]
fn shares_not_rounded_as_they_should_be() {
    let output = right();
    let line = "0 1 0 2 2 0 2000 0 4000 4000 0 0 0 0 0 0\n";
    assert!(output.ends_with(line));
    let wrong = output.replace(line, "0 1 0 2 2 0 1999 0 4000 4000 0 5 0 0 0 0\n");
    assert!(is_noticed(&wrong));
}

/// The figures of a line as enters of other ways, in a total that does not follow.
#[test]
fn objects_that_do_not_add_up() {
    let output = right();
    let line = "1 0 0 1 2 0 0 0 3333 6666 0 0 0 1 2 0\n";
    assert!(output.starts_with(line));
    let wrong = output.replace(line, "1 0 0 2 1 0 0 0 6666 3333 0 0 0 2 1 0\n");
    assert!(is_noticed(&wrong));
}

#[test]
fn too_many_lines() {
    let full = [b"L 1 1 0\n".as_slice(), &b"\n".repeat(MOST_LINES)].concat();
    let over = [full.as_slice(), b"x"].concat();
    assert!(check_output(b"24\n", &recount(&full)).is_err());
    assert!(check_output(&report(&full), &recount(&over)).is_err());
    assert_eq!(check_output(b"24\n", &recount(&over)), Ok([0; 5]));
}

/// The kinds of input that are noted, those of enters left out.
fn kinds(input: &str) -> Vec<Seen> {
    let seen = recount(input.as_bytes()).seen;
    let of_inputs = Seen::ALL[Seen::SeveralSizes as usize..].iter();
    of_inputs
        .copied()
        .filter(|kind| seen.number(*kind) > 0)
        .collect()
}

#[test]
fn kinds_of_input() {
    let long = format!("L 1 1 0\n{}\n", " ".repeat(1_000));
    let noted: [(&str, &[Seen]); 15] = [
        ("L 1 1 0\n", &[]),
        ("L 1 1 0\nL 1 1 1\n", &[]),
        ("L 1 1 0\nL 1 2 0\n", &[Seen::SeveralSizes]),
        ("L 1 1 0\nLx\nE 1 1\n", &[Seen::BelowBadForm]),
        ("L 1 1 0\nLx\nx\n", &[]),
        ("L 1 1 0\nL 33 9 0\nC\n", &[Seen::BelowBadSizes]),
        ("E 1 1\nL 1 1 0\n", &[Seen::BeforeTheFirst]),
        ("L 1 1 0\nx\n", &[Seen::Malformed]),
        ("L 1 1 0\nS 1\n", &[Seen::Refused]),
        ("L 1 1 0\nV 1 1 1\nC\n", &[Seen::Timed]),
        ("L 1 64 0\n", &[Seen::LastObject]),
        ("L 1 1 0\nS 1", &[Seen::Malformed, Seen::UnendedLine]),
        ("L 1 1 0\nL 1 1 0", &[Seen::UnendedHeader]),
        ("\nL 1 1\n", &[Seen::NoGoodHeader]),
        (&long, &[Seen::LongLine, Seen::Malformed]),
    ];
    for (input, expected) in noted {
        assert_eq!(kinds(input), expected, "{input:?}");
    }
    let long = format!("L 1 1 0\nL{}\n", "L".repeat(1_000));
    assert_eq!(kinds(&long), [Seen::LongHeader]);
}

#[test]
fn kinds_of_full_inputs() {
    let full = format!("L 1 1 0\n{}", "C\n".repeat(MOST_LINES));
    let behind = |lines: &str| kinds(&format!("{full}{lines}"));
    assert_eq!(behind(""), [Seen::Full]);
    assert_eq!(behind("C\n"), [Seen::TooManyInASchedule]);
    assert_eq!(behind("Lx\nC\n"), [Seen::TooManyBehind]);
    assert_eq!(behind("C"), [Seen::TooManyUnended]);
    assert_eq!(behind("C\nC\n"), []);
}

#[test]
fn each_kind_has_its_place_and_its_name() {
    for (place, kind) in Seen::ALL.into_iter().enumerate() {
        assert_eq!(kind.place(), place);
    }
    let names: BTreeSet<&str> = Seen::ALL.into_iter().map(Kind::name).collect();
    assert_eq!(names.len(), Seen::ALL.len());
}

/// For a fifth of what the cross-check runs, a fifth of what it must meet.
#[test]
fn generated_inputs_meet_every_kind() {
    let mut met = Tally::default();
    for seed in 0..60 {
        match check_report(&report_input(seed)) {
            Ok(seen) => met.add_all(&seen),
            Err(wrong) => panic!("seed {seed}: {wrong}"),
        }
    }
    for kind in Seen::ALL {
        assert!(met.number(kind) >= kind.least() / 5, "{kind:?}: {met:?}");
    }
}

#[test]
fn a_seed_makes_one_input() {
    assert_eq!(report_input(7), report_input(7));
    assert_ne!(report_input(7), report_input(8));
}
