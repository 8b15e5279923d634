//! The wrong engine has the accident, and its picture says so: run with the feature `stale_store`.
#![cfg(feature = "stale_store")]

use accident::Second;
use schedule_view::schedule::Schedule;
use schedule_view::timeline::draw;

#[test]
fn two_threads_are_inside() {
    let schedule = include_bytes!("../../../examples/cancelled-before-store.txt");
    let drawing = draw::<Second>(Schedule::whole(&schedule[..]), 1..=u64::MAX);
    let drawing = drawing.expect("a picture");
    let told = ["Line 13: thread 1 gets object 1 while thread 2 is still inside."];
    assert_eq!(drawing.accidents, told);
    let overrun: Vec<_> = drawing
        .bands
        .iter()
        .filter(|band| band.class == "overrun")
        .collect();
    assert_eq!(overrun.len(), 1);
    // From the store on, until its exit is refused with 18.
    assert_eq!((overrun[0].first, overrun[0].end), (12, 17));
    assert_eq!(drawing.rows[17].answer, "18");
}
