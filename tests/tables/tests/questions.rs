//! The stored schedules with questions, by the library.

use duskclamp::raw;
use reference::engine::Event;
use reference::outcome::Outcome;
use reference::questions::{answers, Engine};
use reference::report::compare_outputs;
use reference::stored::read_folder;
use reference::table::{Given, Table};
use std::path::Path;
use tables::compare::{call, unpacked};
use tables::layout::{decode, TABLE_SIZE};

/// The bytes of the library's table.
struct Library(Vec<u8>);

impl Engine for Library {
    fn fresh(threads: u16, objects: u16, reserved: bool, given: &Given) -> Option<Library> {
        let mut bytes = vec![0; TABLE_SIZE];
        let (threads, objects) = (threads.into(), objects.into());
        let returned =
            raw::fresh_given(&mut bytes, threads, objects, reserved.into(), &given.ranks);
        (returned == 0).then_some(Library(bytes))
    }

    fn apply(&mut self, event: Event) -> Outcome {
        unpacked(call(&mut self.0, event)).expect("an answer")
    }

    fn table(&self) -> Table {
        decode(&self.0).expect("the bytes of a table")
    }
}

#[test]
fn stored_questions_are_answered() {
    let folder = Path::new(env!("CARGO_MANIFEST_DIR")).join("../questions");
    for case in read_folder(&folder).expect("stored cases") {
        let answered = answers::<Library>(&case.input);
        let compared = answered.and_then(|output| compare_outputs(&output, &case.expected));
        assert_eq!(compared, Ok(()), "{}", case.name);
    }
}
