//! The replay's input forms, and that blocks of any size read the same.

use reference::generate::schedule;
use reference::long_cases;
use reference::replay::{replay, Replay};

fn printed(input: &str) -> String {
    String::from_utf8(replay(input.as_bytes())).expect("ASCII")
}

/// As document 01 prints it, with request L3's set behind each line: the leave, the last but two, hands the monitor to thread 2.
#[test]
fn document_01_listing() {
    let input = "L 2 1 0; E 1 1; S 1; E 2 1; S 2; S 2; S 2; S 2; X 1 1; S 1; S 1; S 1; S 1; S 1; S 2; S 2; ";
    let listed = "0 1 0 000000; 1 0 0 000100; 0 1 0 000100; 0 4 0 000100; 0 6 0 000100; \
        0 7 0 000100; 2 8 0 000100; 0 1 0 000100; 0 9 0 000000; 0 4 0 000000; 0 10 0 000000; \
        0 11 0 000000; 1 0 0 000000; 0 7 0 000000; 1 0 0 000101";
    let listed: Vec<&str> = listed.split("; ").collect();
    let mut expected = String::new();
    for (place, line) in listed.iter().enumerate() {
        let unparked = if place + 3 == listed.len() { 2 } else { 0 };
        expected += &format!("{line} {unparked:08x}\n");
    }
    assert_eq!(printed(&input.replace("; ", "\n")), expected);
}

/// Headers without their newline, parted by bars.
const MALFORMED_HEADERS: &str =
    "|L 1 1|L 1 1 0 |L 1 1 2|L 33 1 2|L 1 1 00|L 01 1 0|L 65536 1 0|L 1 70000 0|\
    l 1 1 0|L  1 1 0|L 1 1 0\r| L 1 1 0|E 1 1|L 1 1 0 0|L 1 1 -0|C|V 1 1 1|L 1 1 0 1";

const MALFORMED_LINES: &str = "| |S|S |S 1 | S 1|S  1|S 01|S 00|S +1|S -1|S 1 1|S 65536|S 99999999999999999999|\
    s 1|S\t1|S 1\r|E 1|E 1 1 1|E 1 01|E  1 1|E 1  1|Q 1 1|L 1 1 0|L 1 1|EE 1 1|1|E 1 1\0|S \u{661}|S1|\
    C |C 1| C|CC|c|C\r|V|V 1|V 1 1|V 1 1 |V 1 1 1 |V 1 1 1 1|V 1 1 01|V 1 1 65536|V 1 1 -1|V 1 1  1|v 1 1 1|\
    VV 1 1 1|W 1 1 1";

#[test]
fn malformed_headers() {
    for header in MALFORMED_HEADERS.split('|') {
        assert_eq!(
            printed(&format!("{header}\nL 1 1 0\nS 1\n")),
            "21\n",
            "{header:?}"
        );
    }
    assert_eq!(printed(""), "21\n");
    assert_eq!(printed("L 1 1 0"), "21\n");
    assert_eq!(printed("L 33 1 0"), "21\n");
}

#[test]
fn sizes() {
    for sizes in ["0 1", "1 0", "33 1", "1 65", "65535 65535", "0 0"] {
        let input = format!("L {sizes} 1\nS 1\nx");
        assert_eq!(printed(&input), "22\n", "{input:?}");
    }
    assert_eq!(printed("L 1 1 0\n"), "");
    assert_eq!(printed("L 32 64 1\n"), "");
}

#[test]
fn malformed_lines() {
    for line in MALFORMED_LINES.split('|') {
        let input = format!("L 1 1 0\n{line}\nE 1 1\n");
        assert_eq!(printed(&input), "21\n0 1 0 000000 00000000\n", "{line:?}");
    }
    assert_eq!(printed("L 1 1 0\nE 1 1"), "21\n");
    let behind = printed("L 1 1 0\nE 1 1\n\n");
    assert_eq!(behind, "0 1 0 000000 00000000\n21\n");
}

#[test]
fn refused_lines() {
    let refused = [
        (
            "12",
            "S 0|S 2|S 65535|E 0 0|W 257 1|V 0 0 0|V 65535 65535 65535",
        ),
        ("13", "E 1 0|E 1 2|A 1 65535|N 1 257|V 1 2 0"),
        ("15", "S 1"),
        ("23", "V 1 1 0"),
    ];
    for (number, lines) in refused {
        for line in lines.split('|') {
            let input = format!("L 1 1 0\n{line}\n");
            assert_eq!(printed(&input), format!("{number}\n"), "{line:?}");
        }
    }
}

#[test]
fn timed_waits_and_ticks() {
    for limit in ["1", "65535"] {
        let input = format!("L 1 1 0\nV 1 1 {limit}\nV 1 1 0\nC\n");
        let expected = "0 1 0 000000 00000000\n14\n0 00000000\n";
        assert_eq!(printed(&input), expected);
    }
    assert_eq!(printed("L 1 1 0\nC"), "21\n");
}

/// Fed byte by byte, so that the replay keeps all of the line: one of the greatest length, and one that is longer.
#[test]
fn the_longest_line_in_pieces() {
    let input = b"L 1 1 0\nV 65535 65535 65535\nV 65535 65535 655351\nC\n";
    let mut run = Replay::default();
    let mut output = Vec::new();
    for byte in input {
        run.feed(&[*byte], &mut output);
    }
    run.finish(&mut output);
    assert_eq!(output, b"12\n21\n0 00000000\n");
}

#[test]
fn blocks_of_any_size() {
    for seed in 0..60 {
        let input = schedule(seed);
        let whole = replay(&input);
        for size in [1, 2, 3, 7, 16, 100] {
            let mut run = Replay::default();
            let mut output = Vec::new();
            for block in input.chunks(size) {
                run.feed(block, &mut output);
            }
            run.finish(&mut output);
            assert_eq!(output, whole, "seed {seed}, blocks of {size}");
        }
    }
}

#[test]
fn long_cases_print_what_is_spelled_out() {
    for case in long_cases::cases() {
        assert!(replay(&case.input) == case.expected, "{}", case.name);
    }
}
