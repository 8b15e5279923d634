//! What is drawn of the second program is what is drawn of the proved library, on every stored schedule and example, with ranks and without: so the
//! accident's picture differs by the wrong engine alone.
#![cfg(not(feature = "stale_store"))]

use accident::Second;
use schedule_view::drawing::Drawing;
use schedule_view::engine::Engine;
use schedule_view::ranks::Ranks;
use schedule_view::schedule::Schedule;
use schedule_view::timeline::draw;
use std::fs;
use std::path::PathBuf;

/// None; and some that let later threads pass earlier ones, more than most schedules have threads.
const RANKS: [&str; 3] = ["0", "0,2,1,3,0,3,1", "2,1,3"];

fn drawn<E: Engine>(input: &[u8], ranks: &str) -> Option<Drawing> {
    let ranks = Ranks::read(ranks).expect("ranks");
    draw::<E>(Schedule::whole(input).ranked(ranks), 1..=u64::MAX).ok()
}

fn answers(drawing: &Option<Drawing>) -> Vec<String> {
    let rows = drawing.iter().flat_map(|drawing| &drawing.rows);
    rows.map(|row| row.answer.clone()).collect()
}

#[test]
fn the_second_program_is_drawn_as_the_proved_one() {
    let tests = PathBuf::from(env!("CARGO_MANIFEST_DIR")).join("..");
    let (mut compared, mut answered_otherwise) = (0, 0);
    for folder in ["../examples", "schedules"] {
        for entry in fs::read_dir(tests.join(folder)).expect("the folder") {
            let path = entry.expect("an entry").path();
            let kind = path.extension().and_then(|kind| kind.to_str());
            if !matches!(kind, Some("txt" | "in")) {
                continue;
            }
            let input = fs::read(&path).expect("a schedule");
            let [plain, ranked, _] = RANKS.map(|ranks| {
                let found = drawn::<Second>(&input, ranks);
                let proved = drawn::<duskclamp::Table>(&input, ranks);
                assert!(found == proved, "{}, ranks {ranks}", path.display());
                found
            });
            compared += usize::from(plain.is_some());
            answered_otherwise += usize::from(answers(&plain) != answers(&ranked));
        }
    }
    assert!(compared > 100, "{compared}");
    assert!(answered_otherwise > 10, "{answered_otherwise}");
}
