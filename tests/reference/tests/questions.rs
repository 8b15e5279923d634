//! The stored schedules with questions, by the second engine; and what is no question.

use reference::questions::answers;
use reference::report::compare_outputs;
use reference::stored::read_folder;
use reference::table::Table;
use std::path::Path;

#[test]
fn stored_questions_are_answered() {
    let folder = Path::new(env!("CARGO_MANIFEST_DIR")).join("../questions");
    for case in read_folder(&folder).expect("stored cases") {
        let answered = answers::<Table>(&case.input);
        let compared = answered.and_then(|output| compare_outputs(&output, &case.expected));
        assert_eq!(compared, Ok(()), "{}", case.name);
    }
}

#[test]
fn what_is_no_question() {
    for (input, wrong) in [
        ("", "no header"),
        ("say\n", "no header"),
        ("L 33 1 0\n", "refused"),
        ("L 1 1 0\npoke rank 1 4\n", "refused"),
        (
            "L 2 1 0\nC\npoke rank 1 1\n",
            "poke rank 1 1\\n is no question",
        ),
        ("L 2 1 0\nring\n", "ring\\n is no question"),
        ("L 2 1 0\ndump", "dump is no question"),
    ] {
        let refused = answers::<Table>(input.as_bytes()).expect_err(input);
        assert!(refused.contains(wrong), "{refused}");
    }
}

/// Answers are printed from `say` on.
#[test]
fn answers_behind_say() {
    let answered = answers::<Table>(b"L 1 1 0\nE 1 1\nsay\nS 1\nS 1\nC\n");
    let expected = b"1 0 0 000100 00000000\n15\n0 00000000\n".to_vec();
    assert_eq!(answered, Ok(expected));
}
